#!/bin/sh
# platforms/windows/build.sh [--code FILE] [--program-code FILE] FOLDER: makes FOLDER/bcs.exe, the program for Windows on
# x86-64, FOLDER/bcs.dll, the library of C, and FOLDER/bcs.lib, which you link with programs that use bcs.dll. The files are
# the LLVM modules of the proved library and of the proved program, as `tools/proved_code.py` makes them with `--module` and
# `--program-module`. A module that isn't named is made first. All tools are the toolchain's own, and no header or library of
# the machine is used, so the result is the same on every machine.
set -eu
unset CDPATH
here=$(cd "$(dirname "$0")" && pwd)
root=$(cd "$here/../.." && pwd)
target=x86_64-w64-windows-gnu

code=
program_code=
while [ $# -gt 1 ]; do
    case $1 in
        --code) code=$2 ;;
        --program-code) program_code=$2 ;;
        *) break ;;
    esac
    shift 2
done
if [ $# != 1 ] || [ "$1" != "${1#-}" ]; then
    echo "Usage: platforms/windows/build.sh [--code FILE] [--program-code FILE] FOLDER" >&2
    exit 3
fi
mkdir -p "$1"
folder=$(cd "$1" && pwd)
kit=$(dirname "$(rt doc)")
room=$(mktemp -d)
trap 'rm -rf "$room"' EXIT
trap 'exit 1' HUP INT TERM

fail() {
    echo "build: $1" >&2
    exit 1
}

# The toolchain's clang is one file with all tools of LLVM. It is the tool whose name it is called by.
mkdir "$room/tools"
for name in clang lld-link llvm-dlltool; do
    ln -s "$kit/toolchain/bin/clang" "$room/tools/$name"
done
clang() {
    "$room/tools/clang" --no-default-config --target=$target "$@"
}
# compile_c SOURCE..
compile_c() {
    local source
    for source in "$@"; do
        clang -c -std=c11 -O2 -ffreestanding -nostdinc -isystem "$root/tools/link/include" -Wall -Wextra -Werror \
            "$source" -o "$room/$(basename "$source" .c).o"
    done
}

# compile_code FILE OUT: compiles the LLVM module for this system. Sizes and the places of fields are the same as on Linux.
# What only Linux has is removed: Windows probes the stack in its own way, and needs to know of each function how to leave
# it. The functions for the heap are those of heap_words.ll, and host.c calls `main`.
compile_code() {
    local layout
    clang -x c -S -emit-llvm -o "$room/empty.ll" /dev/null
    layout=$(sed -n 's/^target datalayout = "\(.*\)"/\1/p' "$room/empty.ll")
    sed -E "s|^target datalayout = .*|target datalayout = \"$layout\"|; s|^target triple = .*|target triple = \"$target\"|
            s/\"probe-stack\"=\"[^\"]*\"/uwtable/g; s/ ?\"(stack-probe-size|target-cpu|target-features)\"=\"[^\"]*\"//g
            s/@(main|rattle_(alloc|realloc))\>/@module_\1/g; s/@module_rattle_/@module_/g" "$1" >"$room/code.ll"
    if [ -z "$layout" ] || [ "$(grep -c "^target .*\"\($layout\|$target\)\"$" "$room/code.ll")" != 2 ]; then
        fail "the LLVM module doesn't name its target as it used to"
    fi
    clang -c -O3 -x ir "$room/code.ll" -o "$2"
}

# link OUT ARGUMENT..: links a program or a DLL that uses the functions in imports/ and no others. With /Brepro it contains
# no time.
link() {
    local out="$1"
    shift
    "$room/tools/lld-link" /nologo /machine:x64 /nodefaultlib /Brepro /opt:ref /opt:icf /debug:none /WX "/out:$out" "$@" \
        "$room/heap_words.o" "$room/heap.o" "$room/stack_probe.o" "$room/advapi32.lib" "$room/kernel32.lib" "$room/msvcrt.lib"
}

if [ -z "$code" ]; then
    code=$room/library.ll
    "$root/tools/proved_code.py" --module "$code"
fi
if [ -z "$program_code" ]; then
    program_code=$room/program.ll
    "$root/tools/proved_code.py" --program-module "$program_code"
fi
compile_code "$code" "$room/library_code.o"
compile_code "$program_code" "$room/program_code.o"
clang -c -O2 -x ir "$here/heap_words.ll" -o "$room/heap_words.o"
compile_c "$here/host.c" "$here/stack_probe.c" "$root/bindings/c/library.c" "$root/bindings/c/heap.c"
for name in advapi32 kernel32 msvcrt; do
    "$room/tools/llvm-dlltool" -m i386:x86-64 -d "$here/imports/$name.def" -l "$room/$name.lib"
done

# The default of 1 MiB for a thread's stack isn't enough for 500 nested containers.
link "$folder/bcs.exe" /subsystem:console /entry:start /stack:16777216 "$room/program_code.o" "$room/host.o"
{
    printf 'LIBRARY bcs.dll\nEXPORTS\n'
    sed -nE 's/^(bcs_answer |void |uint32_t |const char \*)(bcs_[a-z_]*)\(.*/\2/p' "$root/bindings/c/include/bcs.h"
} >"$room/bcs.def"
link "$folder/bcs.dll" /dll /noentry "/def:$room/bcs.def" "/implib:$folder/bcs.lib" "$room/library_code.o" "$room/library.o"
for name in bcs.exe bcs.dll bcs.lib; do
    echo "windows: $name, $(stat -c %s "$folder/$name") bytes"
done
