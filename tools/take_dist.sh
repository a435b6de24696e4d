#!/bin/sh
# Replaces the files in dist/ by those that tools/make_dist.sh made: `tools/take_dist.sh [FOLDER]`. Without FOLDER, it takes
# those in out/dist, where the gate leaves them. If these weren't made from these sources, it makes them first; a FOLDER
# that is named has to be complete.
set -eu
unset CDPATH
cd "$(dirname "$0")/.."
folder=${1:-out/dist}
names='x86_64-linux aarch64-linux x86_64-windows web vectors LIBRARIES SHA256SUMS BUILT_FROM'

fail() {
    echo "tools/take_dist.sh: $1; dist/ is as it was" >&2
    exit 1
}

# put_back: restores the old files unless all new ones are in place, and removes the room.
put_back() {
    local name
    trap '' HUP INT TERM
    for name in $names; do
        if [ "$taken" = no ] && [ -e "$room/old/$name" ]; then
            rm -rf "dist/$name"
            mv "$room/old/$name" dist/
        fi
    done
    rm -rf "$room"
}

{ built_from=$(tools/dist_sources.sh --built-from) && [ -n "$built_from" ]; } || fail "these sources have no checksum"
[ "$built_from" = "$(cat "$folder/BUILT_FROM" 2>/dev/null)" ] || {
    [ $# = 0 ] || fail "$folder isn't complete, or wasn't made from these sources: run tools/make_dist.sh $folder"
    tools/make_dist.sh "$folder"
}

# The new files are complete before an old one moves, and renaming within dist/ copies nothing. Until all of them are in
# place, the old ones are in dist/.take.*/old, even if SIGKILL ends this.
taken=no
room=$(mktemp -d dist/.take.XXXXXX)
trap put_back EXIT
trap 'exit 1' HUP INT TERM
mkdir "$room/new" "$room/old"
for name in $names; do
    cp -R --preserve=mode "$folder/$name" "$room/new"
done
(cd "$room/new" && sha256sum --check --quiet --strict SHA256SUMS) || fail "$folder isn't complete"
[ "$built_from" = "$(cat "$room/new/BUILT_FROM")" ] || fail "$folder wasn't made from these sources"
for name in $names; do
    [ ! -e "dist/$name" ] || mv "dist/$name" "$room/old/"
    mv "$room/new/$name" dist/
done
taken=yes
if [ -e dist/SHA256SUMS.sig ] && ! cmp -s "$room/old/SHA256SUMS" dist/SHA256SUMS; then
    rm -f dist/SHA256SUMS.sig dist/RELEASE dist/RELEASE.sig
    echo "the signatures of the old files are deleted: run tools/sign.sh"
fi
echo "dist/ is built from these sources: $(wc -l <dist/SHA256SUMS) files"
