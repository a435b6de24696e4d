#!/bin/sh
# Tests the extension of SQLite with the proved code in the folder that the variable BCS_LIB names, or in dist/x86_64-linux.
set -eu
unset CDPATH
here=$(cd "$(dirname "$0")" && pwd)
root=$(cd "$here/../.." && pwd)
export BCS_LIB="${BCS_LIB:-$root/dist/x86_64-linux}" PYTHONDONTWRITEBYTECODE=1

fail() {
    echo "sqlite: FAILED: $1" >&2
    exit 1
}

# compile OPTIONS..: the test, with the extension linked into it.
compile() {
    gcc -std=gnu11 -g -Wall -Wextra -Werror -DSQLITE_CORE "$@" -I"$root/bindings/c/include" -I"$root/bindings/sql" \
        "$here"/*.c "$here/tests/connection.c" "$BCS_LIB/libbcs.a" -lsqlite3 -o "$room/connection"
}

room=$(mktemp -d)
trap 'rm -rf "$room"' EXIT
trap 'exit 1' HUP INT TERM
# One line: the compiler warns about nothing.
if ! "$here/build.sh" "$room" >"$room/log" 2>&1 || [ "$(wc -l <"$room/log")" != 1 ]; then
    cat "$room/log"
    fail "build"
fi
nm -D --defined-only "$room/bcs_sqlite.so" >"$room/names"
[ "$(sed 's/.* //' "$room/names")" = sqlite3_bcssqlite_init ] || fail "the extension exports other names"
compile -O1 -fsanitize=address,undefined -fno-sanitize-recover=all
"$room/connection" 20000 || fail "with the sanitizers"
compile -O2
"$room/connection" 1000000 || fail "a million calls"
# (Debian's Python loads extensions, which others may not.)
for tests in sql_types hostile; do
    /usr/bin/python3 "$here/tests/$tests.py" "$room/bcs_sqlite.so" || fail "tests/$tests.py"
done
/usr/bin/python3 "$root/bindings/sql/examples.py" sqlite "$room/bcs_sqlite.so" "$here/README.md" || fail "the examples"
python3 "$root/tests/rows" --without changes sqlite \
    /usr/bin/python3 "$root/bindings/sql/driver.py" sqlite "$room/bcs_sqlite.so" || fail "the rows"
