#!/bin/sh
# Checks how every script that git tracks is written: Python with black, flake8 and strict mypy, POSIX shell with shellcheck and
# shfmt. All other shells are rejected. What a tool finds is printed above its line, and every tool runs even if an earlier one
# fails. Needs Debian 12's packages git, black, flake8, mypy, shellcheck and shfmt.
set -eu
unset CDPATH
export LC_ALL=C.UTF-8
cd "$(dirname "$0")/.."

# The lists of files can't be shorter than this unless finding them is broken.
LEAST_PYTHON=120
LEAST_SHELL=30
# Its marked lines must have errors: bindings/python/tests/test_types.py runs mypy over it.
WITH_ERRORS=bindings/python/tests/typed.py
# Programs over a module of the user's own, which mypy doesn't find.
OF_USERS=examples/vectors

room=$(mktemp -d)
trap 'rm -rf "$room"' EXIT
passed=0 failed=0

# check NAME COMMAND..: runs a command, and prints its output if it fails. Inside COMMAND, `set -e` has no effect.
check() {
    local name="$1"
    shift
    if "$@" >"$room/log" 2>&1; then
        passed=$((passed + 1))
        echo "lint: $name: passed"
    else
        failed=$((failed + 1))
        cat "$room/log"
        echo "lint: $name: FAILED"
    fi
}

# over LIST COMMAND..: runs a command over the files of a list, which has one name per line.
over() {
    local list="$1"
    shift
    xargs -d '\n' -a "$list" "$@"
}

# The files of each kind. A file belongs to one if its name ends so, or if its first line names the interpreter.
find_scripts() {
    git ls-files >"$room/all"
    # shellcheck disable=SC2016 # it is awk's $0
    over "$room/all" awk 'FNR == 1 && /^#!/ { print FILENAME "\t" $0 } { nextfile }' >"$room/interpreters"
    awk -F '\t' '$2 ~ /python/ { print $1 }' "$room/interpreters" >"$room/python_lines"
    awk -F '\t' '$2 == "#!/bin/sh" { print $1 }' "$room/interpreters" >"$room/shell_lines"
    { sed -n '/\.py$/p' "$room/all" && cat "$room/python_lines"; } | sort -u >"$room/python"
    { sed -n '/\.sh$/p' "$room/all" && cat "$room/shell_lines"; } | sort -u >"$room/shell"
}

# Fails if a script runs with anything but python3 and sh.
interpreters() {
    awk -F '\t' '$2 != "#!/bin/sh" && $2 != "#!/usr/bin/env python3" { print $1 ": begins with " $2; bad = 1 } END { exit bad }' \
        "$room/interpreters"
}

# has_least LIST COUNT
has_least() {
    local found
    found=$(wc -l <"$1")
    echo "found $found files, and expected at least $2"
    [ "$found" -ge "$2" ]
}

# Folders have modules of the same names, so mypy runs once for each folder. The runs share a cache. The scripts of a folder may
# import modules of its folder `tests`.
types() {
    local folder status=0
    grep -vxF "$WITH_ERRORS" "$room/python" | grep -v "^$OF_USERS/" >"$room/typed"
    over "$room/typed" dirname | sort -u >"$room/folders"
    while IFS= read -r folder; do
        awk -v folder="$folder" '{ of = $0 } !sub("/[^/]*$", "", of) { of = "." } of == folder' "$room/typed" >"$room/of_folder"
        MYPYPATH="$folder/tests" over "$room/of_folder" mypy --cache-dir "$room/mypy" || status=1
    done <"$room/folders"
    return "$status"
}

for tool in git black flake8 mypy shellcheck shfmt; do
    command -v "$tool" >/dev/null || { echo "lint: FAILED: command not found: $tool" && exit 1; }
done
find_scripts
check "interpreters" interpreters
check "the number of Python files" has_least "$room/python" "$LEAST_PYTHON"
check "the number of shell scripts" has_least "$room/shell" "$LEAST_SHELL"
check "black" over "$room/python" black --check --quiet --diff
check "flake8" over "$room/python" flake8
check "mypy" types
check "shellcheck" over "$room/shell" shellcheck --external-sources
check "shfmt" over "$room/shell" shfmt --diff --language-dialect posix --indent 4 --case-indent --binary-next-line
echo "lint: $passed passed, $failed failed: $(wc -l <"$room/python") Python files, $(wc -l <"$room/shell") shell scripts"
[ "$failed" = 0 ]
