#!/bin/sh
# bindings/sqlite/build.sh [FOLDER]: makes the extension bcs_sqlite.so in FOLDER, or in bindings/sqlite/out. It contains the
# proved code in the folder that the variable BCS_LIB names, or in the one of dist/ for this machine. The variable CC names
# the compiler, with options if you like.
set -eu
unset CDPATH
here=$(cd "$(dirname "$0")" && pwd)
folder=${1:-$here/out}
proved=${BCS_LIB:-$here/../../dist/$(uname -m)-linux}/libbcs.a
if ! [ -e "$proved" ]; then
    echo "build: no $proved" >&2
    exit 1
fi
mkdir -p "$folder"
${CC:-cc} -std=gnu11 -O2 -fPIC -fvisibility=hidden -Wall -Wextra -I"$here/../c/include" -I"$here/../sql" -shared \
    "$here"/*.c "$proved" -Wl,--exclude-libs,ALL -Wl,-z,defs -Wl,-z,relro -Wl,-z,now -o "$folder/bcs_sqlite.so"
echo "build: $folder/bcs_sqlite.so"
