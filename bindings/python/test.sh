#!/bin/sh
# Tests the module of Python over the library that bindings/c/build.sh installed: in the variable BCS_PREFIX, or bindings/c/out.
# If mypy, numpy or PyYAML is missing, it installs Debian's packages, so Debian's own Python runs the tests.
set -eu
unset CDPATH
here=$(cd "$(dirname "$0")" && pwd)
BCS_LIBRARY=$(realpath -m "${BCS_PREFIX:-$here/../c/out}")/lib/libbcs.so
export BCS_LIBRARY PYTHONPATH="$here" PYTHONDONTWRITEBYTECODE=1

fail() {
    echo "python: FAILED: $1"
    exit 1
}

[ -e "$BCS_LIBRARY" ] || fail "no library $BCS_LIBRARY: bindings/c/build.sh makes it"
are_there() {
    command -v mypy >/dev/null && /usr/bin/python3 -c 'import numpy, yaml' 2>/dev/null
}
install_packages() {
    "$here/../../tests/debian.py" mypy python3 python3-numpy python3-yaml
}
are_there || { install_packages && are_there; } \
    || fail "mypy, numpy or PyYAML is missing, and the packages can't be installed"
room=$(mktemp -d)
trap 'rm -rf "$room"' EXIT
/usr/bin/python3 -m unittest discover -s "$here/tests" >"$room/log" 2>&1 || {
    cat "$room/log"
    fail "its tests"
}
# unittest passes if it finds no test, or skips them all
ran=$(sed -n 's/^Ran \([0-9]*\) tests .*/\1/p' "$room/log")
[ "${ran:-0}" -gt 70 ] || fail "only ${ran:-0} of its tests ran"
[ "$(tail -n 1 "$room/log")" = OK ] || fail "some of its $ran tests didn't run: $(tail -n 1 "$room/log")"
echo "python: $ran tests"
