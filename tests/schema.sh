#!/bin/sh
# tests/schema.sh [PROGRAM] [COUNT] [SEED]: checks that the schemas that `bcs schema` prints accept the JSON that `bcs encode`
# accepts, using Debian's validator python3-jsonschema, which is installed if it isn't there. PROGRAM is by default the proved
# one, as `rt ci` or `rt run` left it, COUNT is 5000 random documents, and SEED is 1. The last line says how many were checked,
# and how.
set -eu
unset CDPATH
cd "$(dirname "$0")/.."

/usr/bin/python3 -c 'from jsonschema import Draft202012Validator' 2>/dev/null || tests/debian.py python3 python3-jsonschema || {
    echo "schema: FAILED: python3-jsonschema isn't installed"
    exit 1
}
exec /usr/bin/python3 tests/schema.py "${1:-crates/bcs/out/bcs}" "${2:-5000}" "${3:-1}"
