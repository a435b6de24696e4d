#!/bin/sh
# Makes the test vectors of dist/vectors: `bindings/python/make_vectors.sh LIBRARY FOLDER`, where LIBRARY is a libbcs.so for
# this machine. It needs Python 3.9 or later.
set -eu
unset CDPATH
[ $# = 2 ] || {
    echo "Usage: bindings/python/make_vectors.sh LIBRARY FOLDER" >&2
    exit 2
}
mkdir -p "$2"
BCS_LIBRARY=$(realpath "$1")
folder=$(cd "$2" && pwd)
cd "$(dirname "$0")/../.."
export BCS_LIBRARY PYTHONPATH=bindings/python PYTHONDONTWRITEBYTECODE=1

# make NAME REGISTRY
make() {
    python3 -m bcs_proved.vectors "examples/$2.json" >"$folder/$1.jsonl"
}

make every_format every_format
make aptos aptos_registry
make sui sui_registry
