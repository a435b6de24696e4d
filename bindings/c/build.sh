#!/bin/sh
# Makes the C library from the proved archive, and installs it. See `build.sh --help`.
set -eu
unset CDPATH
here=$(cd "$(dirname "$0")" && pwd)
root=$(cd "$here/../.." && pwd)

usage() {
    cat <<'END'
Usage: bindings/c/build.sh [--prefix FOLDER] [--archive FILE | --from FOLDER]

Makes the C library, and installs it with its header:

    FOLDER/include/bcs.h
    FOLDER/lib/libbcs.a            for static linking
    FOLDER/lib/libbcs.so           for dynamic linking, a link to libbcs.so.0
    FOLDER/lib/pkgconfig/bcs.pc    for pkg-config

Options:
    --prefix FOLDER    where to install (default: bindings/c/out)
    --archive FILE     the proved archive, or a libbcs.a that was made from it (default: crates/bcs_c/out/libbcs_c.a, which
                       `rt lib` proves and builds if it is missing or older than its sources)
    --from FOLDER      a folder with libbcs.a and libbcs.so to install, such as dist/x86_64-linux; nothing is compiled then
    --help             prints this text

The variable CC names the compiler (default: cc). The code is for Linux on processors of the level x86-64-v2: Intel's since
Nehalem of 2008, AMD's since Bulldozer of 2011. An older processor can't load the dynamic library, and a program that is linked
with the static library ends there with an illegal instruction.

Then, with FOLDER as an absolute path:

    export PKG_CONFIG_PATH=FOLDER/lib/pkgconfig
    cc bindings/c/example.c $(pkg-config --cflags --libs bcs) -o example && ./example
END
}

fail() {
    echo "build: $1" >&2
    exit 1
}

is_older_than_sources() {
    [ -n "$(cd "$root" && find crates.txt crates -name out -prune -o -type f \( -path '*/src/*' -o -path '*/specs/*' \
        -o -path '*/proofs/*' -o -name crates.txt \) -newer "$1" -print -quit)" ]
}

prefix=$here/out
archive=
from=
while [ $# -gt 0 ]; do
    case $1 in
        --prefix | --archive | --from) [ -n "${2:-}" ] || fail "$1 needs an argument (see --help)" ;;
    esac
    case $1 in
        --prefix) prefix=$2 && shift ;;
        --prefix=?*) prefix=${1#*=} ;;
        --archive) archive=$2 && shift ;;
        --archive=?*) archive=${1#*=} ;;
        --from) from=$2 && shift ;;
        --help | -h) usage && exit 0 ;;
        *) fail "unknown option: $1 (see --help)" ;;
    esac
    shift
done

[ "$(uname -s) $(uname -m)" = "Linux x86_64" ] \
    || fail "the code is for Linux on x86-64, and this is $(uname -s) on $(uname -m)"
room=$(mktemp -d)
trap 'rm -rf "$room"' EXIT
trap 'exit 1' HUP INT TERM

find_archive() {
    if [ -z "$archive" ]; then
        archive=$root/crates/bcs_c/out/libbcs_c.a
        if [ ! -e "$archive" ] || is_older_than_sources "$archive"; then
            command -v rt >/dev/null \
                || fail "$archive is missing or older than its sources, and building it needs the command rt; use --archive or --from"
            echo "build: proving and building $archive, which takes long if the libraries below aren't built yet" >&2
            (cd "$root/crates/bcs_c" && rt lib) >&2 || fail "rt lib failed in crates/bcs_c"
        fi
    fi
    { [ -f "$archive" ] && [ -r "$archive" ]; } || fail "not a readable file: $archive"
}

# compiler ARGUMENT..: runs CC, which may contain options.
compiler() {
    # shellcheck disable=SC2086
    ${CC:-cc} "$@"
}

check_tools() {
    # shellcheck disable=SC2086
    set -- ${CC:-cc}
    for tool in "$1" ar ld; do
        command -v "$tool" >/dev/null || fail "command not found: $tool; on Debian: apt-get install gcc libc6-dev"
    done
}

# Makes the libraries in the room.
compile() {
    check_tools
    for source in library heap static; do
        compiler -std=c11 -O2 -fPIC -Wall -Wextra -c "$here/$source.c" -o "$room/$source.o"
    done
    cp "$archive" "$room/proved.a"
    ar d "$room/proved.a" library.o heap.o

    # The heap is an object of its own, so a program that defines its functions replaces it.
    mkdir "$room/static"
    ld -r "$room/heap.o" "$room/static.o" -o "$room/static/heap.o"
    cp "$room/proved.a" "$room/libbcs.a"
    ar rcs "$room/libbcs.a" "$room/library.o" "$room/static/heap.o"

    # The mark of the level lets the loader reject an older processor. A linker from before 2021 can't set it, and warns or fails.
    level=-Wl,-z,x86-64-v2
    compiler -shared "$level" "$room/heap.o" -o "$room/trial.so" >"$room/warnings" 2>&1 && [ ! -s "$room/warnings" ] || level=
    compiler -shared -Wl,-soname,libbcs.so.0 -Wl,--version-script="$here/libbcs.map" -Wl,-z,defs,-z,relro,-z,now \
        ${level:+"$level"} -Wl,--whole-archive "$room/proved.a" -Wl,--no-whole-archive "$room/library.o" "$room/heap.o" \
        -o "$room/libbcs.so"
}

if [ -z "$from" ]; then
    find_archive
    compile
else
    cp "$from"/libbcs.a "$from"/libbcs.so "$room" || fail "not all libraries are in $from"
fi
mkdir -p "$prefix/include" "$prefix/lib/pkgconfig" || fail "can't create the folder $prefix"
prefix=$(cd "$prefix" && pwd)

"$root/tools/packaging/pkg_config.sh" "$prefix" >"$room/bcs.pc"

install -m 644 "$here/include/bcs.h" "$prefix/include/"
install -m 644 "$room/libbcs.a" "$prefix/lib/"
install -m 755 "$room/libbcs.so" "$prefix/lib/libbcs.so.0"
ln -sfn libbcs.so.0 "$prefix/lib/libbcs.so"
install -m 644 "$room/bcs.pc" "$prefix/lib/pkgconfig/"
echo "build: installed in $prefix"
