#!/bin/sh
# tools/packaging/pkg_config.sh FOLDER [PROCESSOR]: prints the file bcs.pc, which describes the C library to pkg-config, for
# a FOLDER with the header in include/ and the libraries in lib/. PROCESSOR is a name like those of `uname -m`, and this
# machine's by default.
set -eu
unset CDPATH
export LC_ALL=C
prefix=$1
root=$(cd "$(dirname "$0")/../.." && pwd)

fail() {
    printf 'pkg-config: %s\n' "$1" >&2
    exit 1
}

# With these in the file, pkg-config would name another folder, or none.
case $prefix in
    *[\#\$\"\']* | *[[:blank:]])
        fail "bcs.pc can't name a folder with # \$ \" or ' in its name, or a blank at its end: $(printf %s "$prefix" | tr -c ' -~' '?')"
        ;;
esac

# The loader searches the system's own folders. For another one, the path is stored when a program is linked.
case $prefix in
    /usr | /usr/local) path= ;;
    *) path=" -Wl,-rpath,\"\${libdir}\"" ;;
esac
level=
[ "${2:-$(uname -m)}" != x86_64 ] || level="; for processors of the level x86-64-v2"
version=$(sed -n 's/.*VERSION[^"]*"\([0-9.]*\).*/\1/p' "$root/crates/bcs_tool_command_line/src/version.rt")
[ -n "$version" ] || fail "crates/bcs_tool_command_line/src/version.rt contains no version"
cat <<PC
prefix=$prefix
includedir=\${prefix}/include
libdir=\${prefix}/lib

Name: bcs
Description: Canonical bytes (BCS) of JSON texts, proved$level
Version: $version
Cflags: -I"\${includedir}"
Libs: -L"\${libdir}"$path -lbcs
PC
