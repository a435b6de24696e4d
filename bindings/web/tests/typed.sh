#!/bin/sh
# bindings/web/tests/typed.sh FOLDER: tests `bcs-types` in the folder that bindings/web/build.sh made. TypeScript's compiler
# accepts what it writes for the registries in examples/, for one with all shapes and for one with hostile names. It accepts
# right values, the values that random bytes are decoded to, and the program in the README, and rejects wrong values. The
# programs that it makes of them run.
set -eu
unset CDPATH
here=$(cd "$(dirname "$0")" && pwd)
root=$(cd "$here/../../.." && pwd)
folder=$(cd "$1" && pwd)
room=$(mktemp -d)
trap 'rm -rf "$room"' EXIT
trap 'exit 1' HUP INT TERM
cd "$room"

fail() {
    echo "typed: FAILED: $1"
    exit 1
}

# declare_types NAME REGISTRY: writes the declarations of a registry, and random values of its containers.
declare_types() {
    node types.mjs "$2" >"$1.d.mts" || fail "the declarations of $1"
    BCS_WASM=bcs.wasm node "$here/typed_values.mjs" "$2" "$1" >"values_of_$1.mts" || fail "values of $1"
    node types.mjs --plain-options "$2" >"plain_$1.d.mts" || fail "the plain declarations of $1"
    BCS_WASM=bcs.wasm node "$here/typed_values.mjs" "$2" "plain_$1" >"values_of_plain_$1.mts" || fail "plain values of $1"
}

# refuses STATUS TEXT ARGUMENT..: it ends with this status, prints this text in the first line of standard error, and
# nothing to standard output.
refuses() {
    local wanted="$1" text="$2" status=0
    shift 2
    node types.mjs "$@" >output 2>errors || status=$?
    if [ "$status" != "$wanted" ] || [ -s output ] || [ "$(head -n 1 errors)" != "$text" ]; then
        fail "types $*: $status: $(cat output errors)"
    fi
}

# code_of_readme LANGUAGE: the blocks in this language, in the section on the types of a registry's values.
code_of_readme() {
    sed -n "/^### With the types/,/^### As a command/p" "$here/../README.md" | sed -n "/^\`\`\`$1/,/^\`\`\`\$/p" | sed '/^```/d'
}

cp "$folder"/*.mjs "$folder/bcs.d.mts" "$folder/bcs.wasm" .
aptos=$root/examples/aptos_registry.json
declare_types aptos "$aptos"
declare_types sui "$root/examples/sui_registry.json"
declare_types shapes "$here/shapes.json"
declare_types hostile "$root/tests/rows/hostile_names.json"
reversed=$(node -p 'JSON.stringify(Object.fromEntries(Object.entries(JSON.parse(fs.readFileSync(process.argv[1]))).reverse()))' "$aptos")
node types.mjs "$reversed" | cmp - aptos.d.mts || fail "the order of a registry's members"

refuses 2 'refused: UnknownName at A: no container is called B' '{"A":{"NEWTYPESTRUCT":{"TYPENAME":"B"}}}'
refuses 2 'refused: NotJson: line 1, column 1: the document ends there; } is missing' '{'
refuses 3 'Usage: bcs-types [--plain-options] [--names NAMES] REGISTRY >registry.d.mts'
refuses 3 'Usage: bcs-types [--plain-options] [--names NAMES] REGISTRY >registry.d.mts' a.json b.json
refuses 3 'Usage: bcs-types [--plain-options] [--names NAMES] REGISTRY >registry.d.mts' --other
refuses 3 'Usage: bcs-types [--plain-options] [--names NAMES] REGISTRY >registry.d.mts' --plain-options
refuses 3 'Usage: bcs-types [--plain-options] [--names NAMES] REGISTRY >registry.d.mts' --names '{}'
refuses 3 "names: this isn't JSON" --names address '{}'
refuses 3 'names: the registry has no newtype of 32 bytes called A' --names '{"address":["A"]}' '{"A":{"NEWTYPESTRUCT":"BYTES"}}'
refuses 3 'names has address, u256 and i256, and not u128' --names '{"u128":[]}' '{}'
refuses 3 'names is an object of arrays' --names 7 '{}'
refuses 4 'fault: open in the file none.json: No such file or directory' none.json
node types.mjs --help >help || fail "help"
[ "$(head -n 1 help)" = 'Usage: bcs-types [--plain-options] [--names NAMES] REGISTRY >registry.d.mts' ] || fail "help"

# The program in the README, and the commands before it, which make its registry.
code_of_readme sh >commands
code_of_readme ts >readme.mts
sh -e commands || fail "the commands of the README"

# (what the programs use of Node, whose own declarations aren't here)
cat >node.d.ts <<'END'
declare module 'node:fs' {
  export function readFileSync(name: string): Uint8Array;
  export function readFileSync(name: string, encoding: 'utf8'): string;
}
declare const process: { argv: string[] };
END
cp "$here/typed.mts" .
tsc --strict --noUncheckedIndexedAccess --target es2022 --lib es2022,dom --module nodenext --moduleResolution nodenext \
    --pretty false --outDir made ./*.d.mts values_of_*.mts readme.mts typed.mts node.d.ts >report || true
told=$("$root/tests/marked_errors.py" report readme.mts typed.mts) || fail "$told"
[ "$told" = "41 wrong lines are refused, and no others" ] || fail "$told"
cp ./*.mjs bcs.wasm made
node made/typed.mjs bcs.wasm "$root/examples" || fail "right values of the examples"
if node made/readme.mjs >said 2>&1; then
    fail "the wrong value of the README is encoded"
fi
grep -q 'BcsError: refused: MissingField: no member is called amount' said || fail "the README: $(cat said)"
count=$(cat values_of_*.mts | grep -c "\['decode'\]") || fail "no random values"
echo "typed: $count random values have their types; $told"
