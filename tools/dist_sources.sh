#!/bin/sh
# Prints a checksum over all sources that dist/ is built from: crates.txt; the code, definitions and proofs of `bcs`,
# `bcs_c` and the crates that they use; and the files of bindings/, examples/ and tools/ that dist/ is made from, or made
# with. A link counts as what it leads to. It doesn't depend on where the repository is. It needs coreutils, findutils and awk, or those of busybox.
#
#     tools/dist_sources.sh --list          prints the names of the files
#     tools/dist_sources.sh --built-from    prints the toolchain and the checksum, in the form of dist/BUILT_FROM
set -eu
unset CDPATH
export LC_ALL=C
cd "$(dirname "$(readlink -f "$0")")/.."

fail() {
    echo "tools/dist_sources.sh: $1" >&2
    exit "${2:-1}"
}

# find_crates: prints the names of `bcs`, of `bcs_c`, and of every crate that they use.
find_crates() {
    awk -F: '
        function add(crate,    used, count, at) {
            if (!(crate in uses) || crate in found) return
            found[crate] = 1
            print crate
            count = split(uses[crate], used, " ")
            for (at = 1; at <= count; at++) add(used[at])
        }
        /^[^#]/ { split($1, words, " "); uses[words[1]] = $2 }
        END { add("bcs"); add("bcs_c") }' crates.txt
}

# each_source ACTION..: runs an action of `find` on each of the files.
each_source() {
    local crate
    find crates.txt tools/build.py tools/libraries.py tools/link tools/make_dist.sh tools/proved_code.py tools/toolchain.py \
        bindings/c/library.c bindings/c/heap.c bindings/c/static.c bindings/c/proved.h bindings/c/libbcs.map \
        bindings/c/include bindings/web platforms/arm64 platforms/hosts platforms/wasm platforms/windows \
        bindings/python/bcs_proved bindings/python/make_vectors.sh examples/*.json examples/*.hex \
        \( -name tests -o -name test.sh -o -name test.py -o -name out -o -name __pycache__ -o -name .mypy_cache -o -name package.json \
        -o -name '*.md' -o -name '*.png' -o -path bindings/python/bcs_proved/registries.py \
        -o -path 'bindings/python/bcs_proved/*types.py' -o -path bindings/python/bcs_proved/declaring.py \) \
        -prune -o \( -type f -o -type l \) "$@" || return
    set -- -name out -prune -o \( -type f -o -type l \) \( -path '*/src/*' -o -path '*/specs/*' -o -path '*/proofs/*' \) "$@"
    for crate in $crates; do
        set -- "crates/$crate" "$@"
    done
    find "$@"
}

# checksum: prints the checksum over the checksums of the files. (A failure on the left side of a pipe would be lost.)
checksum() {
    local sum
    each_source -exec sha256sum {} + >"$room/sums" || fail "the sources can't be read"
    sort -k 2 -o "$room/sums" "$room/sums"
    sum=$(sha256sum <"$room/sums")
    echo "${sum%% *}"
}

crates=$(find_crates)
[ -n "$crates" ] || fail "crates.txt doesn't list bcs and bcs_c"
room=$(mktemp -d)
trap 'rm -rf "$room"' EXIT
trap 'exit 1' HUP INT TERM
case ${1-} in
    '') checksum ;;
    --list)
        each_source -print >"$room/names" || fail "the sources can't be listed"
        sort "$room/names"
        ;;
    --built-from)
        { toolchain=$(rt version) && [ -n "$toolchain" ]; } || fail "naming the toolchain needs its command rt"
        sources=$(checksum) || exit
        printf '%s\nsources %s\n' "$toolchain" "$sources"
        ;;
    *) fail "unknown argument. Usage: tools/dist_sources.sh [--list | --built-from]" 2 ;;
esac
