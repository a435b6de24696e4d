#!/bin/sh
# Makes all files of dist/ in a folder, with the toolchain, from the proved crates: `tools/make_dist.sh FOLDER`. It proves
# and builds the crates first, unless they are built from these sources already. BUILT_FROM is written last, so a folder
# that has it is complete.
set -eu
unset CDPATH
[ $# = 1 ] || {
    echo "Usage: tools/make_dist.sh FOLDER" >&2
    exit 2
}
umask 022
mkdir -p "$1"
folder=$(cd "$1" && pwd)
cd "$(dirname "$0")/.."

tools/check_tracked.sh
x86_64=$folder/x86_64-linux
archive=crates/bcs_c/out/libbcs_c.a
room=$(mktemp -d)
trap 'rm -rf "$room"' EXIT
trap 'exit 1' HUP INT TERM

# is_proved: whether the libraries and the program were built from these sources. out/proved names the ones they were built
# from.
is_proved() {
    local changed
    [ "$built_from" = "$(cat out/proved 2>/dev/null)" ] \
        && changed=$(find crates/*/out/rlib crates/bcs/out/bcs -newer out/proved 2>/dev/null) && [ -z "$changed" ]
}

# write_sums: writes SHA256SUMS, which also lists BUILT_FROM, so that a signature covers it. (A failure on the left side of a
# pipe would be lost.)
write_sums() (
    cd "$folder"
    find LIBRARIES x86_64-linux aarch64-linux x86_64-windows web vectors -type f -exec sha256sum {} + >"$room/sums"
    printf '%s\n' "$built_from" >"$room/BUILT_FROM"
    (cd "$room" && sha256sum BUILT_FROM) >>"$room/sums"
    LC_ALL=C sort -k 2 -o SHA256SUMS "$room/sums"
)

built_from=$(tools/dist_sources.sh --built-from)
if ! is_proved; then
    tools/build.py
    mkdir -p out
    printf '%s\n' "$built_from" >out/proved
fi
for name in BUILT_FROM SHA256SUMS LIBRARIES x86_64-linux aarch64-linux x86_64-windows web vectors; do
    rm -rf "${folder:?}/$name"
done
mkdir "$x86_64" "$folder/aarch64-linux" "$folder/x86_64-windows" "$folder/web"
make_programs() {
    tools/proved_code.py --program "$room/bcs.o"
    tools/link/link.sh --program "$room/bcs.o" "$x86_64"
    tools/proved_code.py --program-module "$room/program.ll"
}

make_libraries() {
    tools/proved_code.py "$archive"
    tools/link/link.sh --libraries "$archive" "$x86_64"
    tools/proved_code.py --module "$room/code.ll"
}

make_arm64() {
    platforms/arm64/build.sh --code "$room/code.ll" --program-code "$room/program.ll" "$folder/aarch64-linux"
}

make_windows() {
    platforms/windows/build.sh --code "$room/code.ll" --program-code "$room/program.ll" "$folder/x86_64-windows"
}

make_web() {
    bindings/web/build.sh --code "$room/code.ll" --program-code "$room/program.ll" "$folder/web"
}

make_vectors() {
    bindings/python/make_vectors.sh "$x86_64/libbcs.so" "$folder/vectors"
}

# side_by_side FUNCTION..: runs them at the same time, and fails if one of them does.
side_by_side() {
    local name process processes='' failed=''
    for name; do
        "$name" &
        processes="$processes $!"
    done
    for process in $processes; do
        wait "$process" || failed=1
    done
    [ -z "$failed" ]
}

side_by_side make_programs make_libraries
side_by_side make_web make_arm64 make_windows make_vectors
tools/libraries.py >"$folder/LIBRARIES"

find "$folder" -type f -exec chmod 644 {} +
chmod 755 "$x86_64/bcs" "$x86_64/libbcs.so" "$folder/aarch64-linux/bcs" "$folder/aarch64-linux/libbcs.so"
write_sums
cp "$room/BUILT_FROM" "$folder"
echo "made in $folder: $(wc -l <"$folder/SHA256SUMS") files"
