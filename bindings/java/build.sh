#!/bin/sh
# Makes bcsproved.jar from the C library that bindings/c/build.sh installed. See `build.sh --help`.
set -eu
unset CDPATH
here=$(cd "$(dirname "$0")" && pwd)

usage() {
    cat <<'END'
Usage: bindings/java/build.sh [--prefix FOLDER] [--arm64 FOLDER] [--out FOLDER]

Makes bcsproved.jar, which has the class bcsproved.Registry for Java 17 and later, and its native library for this machine.

Options:
    --prefix FOLDER    where bindings/c/build.sh or ./install --library installed the C library (default: bindings/c/out)
    --arm64 FOLDER     a folder with the libbcs.a for Linux on arm64, such as dist/aarch64-linux: the jar then also has a native
                       library for arm64. It needs a cross compiler: the variable CC_ARM64, or aarch64-linux-gnu-gcc
    --out FOLDER       where to put the jar and the native library (default: bindings/java/out)
    --help             prints this text

It needs a JDK, found by JAVA_HOME or javac, and a C compiler: the variable CC, or cc.
END
}

fail() {
    echo "build: $1" >&2
    exit 1
}

prefix=$here/../c/out
arm64=
out=$here/out
while [ $# -gt 0 ]; do
    case $1 in
        --prefix | --arm64 | --out) [ -n "${2:-}" ] || fail "$1 needs a folder" ;;
    esac
    case $1 in
        --prefix) prefix=$2 && shift ;;
        --arm64) arm64=$2 && shift ;;
        --out) out=$2 && shift ;;
        --help | -h) usage && exit 0 ;;
        *) fail "unknown option: $1 (see --help)" ;;
    esac
    shift
done

[ -e "$prefix/lib/libbcs.a" ] || fail "no library in $prefix: bindings/c/build.sh makes it"
[ -z "$arm64" ] || [ -e "$arm64/libbcs.a" ] || fail "no library in $arm64: platforms/arm64/build.sh makes it"
home=${JAVA_HOME:-}
if [ -z "$home" ]; then
    compiler=$(command -v javac) || fail "command not found: javac; on Debian: apt-get install openjdk-17-jdk-headless"
    home=$(dirname "$(dirname "$(realpath "$compiler")")")
fi
[ -e "$home/include/jni.h" ] || fail "no JDK in $home: it has no include/jni.h"

room=$(mktemp -d)
trap 'rm -rf "$room"' EXIT
trap 'exit 1' HUP INT TERM

# make_native SYSTEM LIBRARY COMPILER [OPTION..]: makes the native library for a system, as Java names it, over the C library.
make_native() {
    local system="$1" library="$2"
    shift 2
    command -v "$1" >/dev/null || fail "command not found: $1; on Debian: apt-get install gcc libc6-dev"
    mkdir -p "$room/bcsproved/$system"
    "$@" -std=gnu11 -O2 -Wall -Wextra -fPIC -shared -I"$prefix/include" -I"$home/include" -I"$home/include/linux" \
        "$here/jni/bcs_jni.c" "$library" -Wl,--exclude-libs,ALL -Wl,-z,defs,-z,relro,-z,now \
        -o "$room/bcsproved/$system/libbcs_jni.so"
}

# Java's own name for the system, which the class uses to find its library.
case $(uname -s)-$(uname -m) in
    Linux-x86_64) system=Linux-amd64 ;;
    Linux-aarch64) system=Linux-aarch64 ;;
    *) fail "there is no library for $(uname -s) on $(uname -m)" ;;
esac
mkdir -p "$out"
"$home/bin/javac" -Xlint:all -Werror --release 17 -d "$room" "$here"/src/bcsproved/*.java "$here/jni/bcsproved/Native.java"
# shellcheck disable=SC2086 # the variable of a compiler may contain options
make_native "$system" "$prefix/lib/libbcs.a" ${CC:-cc}
if [ -n "$arm64" ]; then
    # shellcheck disable=SC2086
    make_native Linux-aarch64 "$arm64/libbcs.a" ${CC_ARM64:-aarch64-linux-gnu-gcc}
fi
"$home/bin/jar" --create --file "$room/bcsproved.jar" --date=2026-01-01T00:00:00Z -C "$room" bcsproved
install -m 644 "$room/bcsproved.jar" "$room/bcsproved/$system/libbcs_jni.so" "$out/"
echo "build: made $out/bcsproved.jar"
