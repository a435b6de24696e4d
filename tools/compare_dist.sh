#!/bin/sh
# Compares the whole of dist/: `tools/compare_dist.sh [FOLDER | --committed]`. If dist/ was built from these sources, each
# file must be byte for byte the one that tools/make_dist.sh made in FOLDER (default: out/dist), whichever toolchain built
# it. If the sources have changed since, the last commit that changed these files must have had the sources that BUILT_FROM
# names, and the last line reports that dist/ is older. README.md must be as in the last commit. The signature isn't compared,
# since only maintainers can make it.
#
# With --committed, for machines without the toolchain, dist/ has to be current and as in the last commit. Without a history,
# it has to be signed.
set -eu
unset CDPATH
export LC_ALL=C GIT_NO_REPLACE_OBJECTS=1
cd "$(dirname "$0")/.."
folder=${1:-out/dist}
built='LIBRARIES x86_64-linux aarch64-linux x86_64-windows web vectors'

fail() {
    echo "dist: FAILED: $1"
    exit 1
}

# read_label FILE: sets `kit` and `sources` to the toolchain and the checksum that a BUILT_FROM names.
read_label() {
    [ -f "$1" ] || fail "there is no $1: run tools/take_dist.sh"
    kit=$(sed -n '1{/^[[:print:]]\{1,\}$/p;}' "$1")
    sources=$(sed -n '2s/^sources \([0-9a-f]\{64\}\)$/\1/p' "$1")
    { [ -n "$kit" ] && [ -n "$sources" ] && printf '%s\nsources %s\n' "$kit" "$sources" | cmp -s - "$1"; } \
        || fail "$1 doesn't name a kit and a checksum: run tools/take_dist.sh"
}

# list_differences FOLDER NAME..: prints a line for each file of these names that isn't the same in the folder and in dist/.
# If diff can't compare them, its message is such a line.
list_differences() {
    local compared="$1" name
    shift
    for name in "$@"; do
        [ -e "$compared/$name" ] || [ -e "dist/$name" ] || continue
        diff --recursive --brief --no-dereference "$compared/$name" "dist/$name" 2>&1 || true
    done
}

# same_sums FOLDER: whether its SHA256SUMS is that of dist/, except for the checksum of BUILT_FROM, which names the toolchain.
same_sums() {
    sed 's/^[0-9a-f]*  BUILT_FROM$/-  BUILT_FROM/' "$1/SHA256SUMS" >"$room/built_sums"
    sed 's/^[0-9a-f]*  BUILT_FROM$/-  BUILT_FROM/' dist/SHA256SUMS | cmp -s - "$room/built_sums"
}

# compare_builds: dist/ and the folder come from the same sources, so nothing may differ.
compare_builds() {
    local found dist_kit="$kit" built_from
    built_from=$(tools/dist_sources.sh --built-from) || fail "comparing needs the toolchain"
    [ "$built_from" = "$(cat "$folder/BUILT_FROM")" ] \
        || fail "$folder wasn't made from these sources by this kit: run tools/make_dist.sh $folder"
    read_label "$folder/BUILT_FROM"
    # shellcheck disable=SC2086 # these are several names
    found=$(list_differences "$folder" $built)
    same_sums "$folder" || found="$found
Files $folder/SHA256SUMS and dist/SHA256SUMS differ"
    if [ -n "$found" ]; then
        echo "$found"
        fail "dist/ ($dist_kit) isn't what $kit builds from the same sources: run tools/take_dist.sh"
    fi
    echo "dist: $(grep -vc '^-' "$room/built_sums") files are byte for byte what $kit builds from these sources (dist/ was built by $dist_kit)"
}

# check_out COMMIT FOLDER: makes a fresh clone with the commit's files. (`git archive` would obey attributes that leave
# files out, and then show other sources than those that the gate of that commit had.)
check_out() {
    git clone --quiet --shared --no-checkout . "$2" && git -C "$2" checkout --quiet --detach "$1"
}

# forget_git_variables: drops the variables that lead git to another repository.
forget_git_variables() {
    local names name
    names=$(git rev-parse --local-env-vars)
    for name in $names; do
        unset "$name"
    done
}

# find_history: sets `why` to why git has no history of this folder, or to nothing.
find_history() {
    local top
    why="that needs git"
    command -v git >/dev/null || return 0
    forget_git_variables
    why="git finds no history of this folder"
    top=$(git rev-parse --show-toplevel 2>&1) || {
        why="$why: $top"
        return 0
    }
    [ "$(cd "$top" && pwd -P)" != "$(pwd -P)" ] || why=
}

# check_readme: nothing builds README.md, so it is compared with the last commit.
check_readme() {
    find_history
    [ -z "$why" ] || fail "dist/README.md can't be compared: $why"
    git cat-file blob HEAD:dist/README.md >"$room/README.md" 2>/dev/null || fail "the last commit has no dist/README.md"
    cmp -s "$room/README.md" dist/README.md || fail "dist/README.md has changes that aren't committed"
}

# check_committed: dist/ is that of the last commit, or at least signed.
check_committed() {
    local found
    tools/check_dist.sh || exit
    find_history
    if [ -n "$why" ]; then
        [ -e dist/SIGNERS ] || fail "dist/ is neither signed nor can it be compared with a commit: $why"
        return
    fi
    check_out HEAD "$room/then" || fail "the last commit can't be checked out"
    found=$(diff --recursive --brief --no-dereference "$room/then/dist" dist 2>&1) \
        || fail "dist/ has changes that aren't committed:
$(echo "$found" | sed "s,$room/then,HEAD,g")"
    echo "dist: as in the last commit"
}

# check_history: dist/ is that of its last commit, and that commit has the sources that BUILT_FROM names.
check_history() {
    local older="dist/ is older than these sources" name commit tag found
    find_history
    [ -z "$why" ] || fail "$older, and its last commit can't be checked: $why"
    [ "$(git rev-parse --is-shallow-repository)" = false ] || fail "$older, and this clone is shallow: run git fetch --unshallow"
    set -- BUILT_FROM SHA256SUMS
    for name in $built; do
        set -- "$@" "$name"
    done
    { commit=$(cd dist && git rev-list -1 HEAD -- "$@") && [ -n "$commit" ]; } \
        || fail "$older, and no commit has its files: run tools/take_dist.sh"
    check_out "$commit" "$room/then" || fail "$older, and its last commit $commit can't be checked out"
    found=$(list_differences "$room/then/dist" "$@")
    [ -z "$found" ] || fail "$older, and has changes that aren't committed: run tools/take_dist.sh
$(echo "$found" | sed "s,$room/then,$commit,g")"
    [ "$("$room/then/tools/dist_sources.sh")" = "$sources" ] \
        || fail "BUILT_FROM names neither these sources nor those of $commit, the last commit that changed dist/: run tools/take_dist.sh"
    tag=$(git tag --points-at HEAD)
    [ -z "$tag" ] || fail "$older, and a release (the tag $(echo "$tag" | paste -s -d , -)) needs a current one: run tools/take_dist.sh"
    echo "dist: OLDER than these sources, so it wasn't compared. $kit built it in $commit"
}

room=$(mktemp -d)
trap 'rm -rf "$room"' EXIT
trap 'exit 1' HUP INT TERM
[ "$folder" != --committed ] || {
    check_committed
    exit
}
tools/check_dist.sh --files || exit
check_readme
read_label dist/BUILT_FROM
{ now=$(tools/dist_sources.sh) && [ -n "$now" ]; } || fail "the checksum of the sources can't be computed"
if [ "$now" = "$sources" ]; then compare_builds; else check_history; fi
