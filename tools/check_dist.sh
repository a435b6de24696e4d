#!/bin/sh
# Checks dist/ without the toolchain: `tools/check_dist.sh [--files]`.
#
# dist/ has exactly the files that SHA256SUMS lists, with these checksums, and README.md, SHA256SUMS, BUILT_FROM, RELEASE and
# the signatures. Nothing in it is a link. BUILT_FROM names these sources, by their content. tools/release.py finds nothing. If
# dist/ has SIGNERS, one of them has signed SHA256SUMS and, if it is there, RELEASE. With --files, only the files of dist/ are
# checked.
#
# It needs coreutils, findutils, diffutils and awk, or those of busybox; without --files python3, and ssh-keygen if dist/ is
# signed.
set -eu
unset CDPATH
export LC_ALL=C
cd "$(dirname "$(readlink -f "$0")")/.."

# printable: prints what it reads, with a ? for each byte that isn't printable ASCII.
printable() {
    tr -c ' -~\n' '?'
}

fail() {
    echo "dist: FAILED: $1" | printable
    exit 1
}

# list_sums: prints the checksum of each file that SHA256SUMS has to list, in its form. (An older one doesn't list BUILT_FROM.)
list_sums() (
    cd dist
    set -- ! -path ./README.md ! -path ./SHA256SUMS ! -path ./SHA256SUMS.sig ! -path ./RELEASE ! -path ./RELEASE.sig ! -path ./SIGNERS
    grep -q '^[0-9a-f]*  BUILT_FROM$' SHA256SUMS || set -- "$@" ! -path ./BUILT_FROM
    find . -type f "$@" -exec sha256sum {} + | sed 's,  \./,  ,' | sort -k 2
)

# list_folders: prints the folders of the files that SHA256SUMS lists.
list_folders() {
    echo dist
    sed 's,^[0-9a-f]*  ,dist/,' dist/SHA256SUMS | while IFS= read -r path; do
        while [ "${path%/*}" != dist ] && [ "${path%/*}" != "$path" ]; do
            path=${path%/*}
            printf '%s\n' "$path"
        done
    done
}

# same LIST OTHER TEXT: ends with the text unless the lists are the same.
same() {
    diff "$1" "$2" >"$room/different" || {
        sed -n '/^[<>]/p' "$room/different" | printable
        fail "$3: get dist/ again, or run tools/take_dist.sh"
    }
}

check_files() {
    local name other
    { [ -d dist ] && [ ! -L dist ]; } || fail "dist/ isn't a folder"
    other=$(find dist ! -type f ! -type d)
    [ -z "$other" ] || fail "dist/ may only have files and folders, and has $other: get dist/ again, or run tools/take_dist.sh"
    for name in README.md SHA256SUMS BUILT_FROM; do
        [ -f "dist/$name" ] || fail "there is no dist/$name: get dist/ again, or run tools/take_dist.sh"
    done
    list_sums >"$room/sums"
    same dist/SHA256SUMS "$room/sums" "dist/ doesn't have exactly the files that SHA256SUMS lists"
    list_folders | sort -u >"$room/listed"
    find dist -type d | sort >"$room/folders"
    same "$room/listed" "$room/folders" "dist/ has a folder in which SHA256SUMS lists no file"
    for name in x86_64-linux/bcs x86_64-linux/libbcs.so aarch64-linux/bcs aarch64-linux/libbcs.so; do
        [ -x "dist/$name" ] || fail "dist/$name isn't executable: get dist/ again, or run tools/take_dist.sh"
    done
    echo "dist: $(grep -c '' dist/SHA256SUMS) files are those of SHA256SUMS, and there is nothing else"
}

check_sources() {
    local named sources
    named=$(sed -n '2s/^sources //p' dist/BUILT_FROM)
    sources=$(tools/dist_sources.sh)
    [ "$named" = "$sources" ] \
        || fail "dist/ was built from other sources than these: check out the commit in which it was built, or run tools/take_dist.sh"
    echo "dist: BUILT_FROM names these sources"
}

# verify FILE NAMESPACE: ends unless dist/FILE.sig is a signature of dist/FILE for this purpose, by a key in dist/SIGNERS.
verify() {
    { [ -e "dist/$1" ] && [ -e "dist/$1.sig" ]; } \
        || fail "dist/ has SIGNERS, and $1 is missing or isn't signed: a maintainer has to run tools/sign.sh"
    command -v ssh-keygen >/dev/null || fail "dist/ is signed, and checking that needs ssh-keygen (Debian's openssh-client)"
    ssh-keygen -Y verify -f dist/SIGNERS -I maintainer -n "$2" -s "dist/$1.sig" <"dist/$1" >"$room/verified" 2>&1 \
        || fail "the signature of $1 is wrong: $(tail -n 1 "$room/verified")"
}

check_signature() {
    local name
    if [ ! -e dist/SIGNERS ]; then
        for name in SHA256SUMS.sig RELEASE RELEASE.sig; do
            [ ! -e "dist/$name" ] || fail "there is dist/$name, but no dist/SIGNERS that says whose signature is valid"
        done
        echo "dist: unsigned"
        return
    fi
    grep -q '^[0-9a-f]*  BUILT_FROM$' dist/SHA256SUMS || fail "the signed SHA256SUMS doesn't list BUILT_FROM"
    verify SHA256SUMS bcs-dist
    if [ -e dist/RELEASE ] || [ -e dist/RELEASE.sig ]; then
        verify RELEASE bcs-release
        echo "dist: signed by a key in dist/SIGNERS; SECURITY.md shows how to check it with a key that you got elsewhere"
    else
        echo "dist: no release: a key in dist/SIGNERS has signed the files in dist/, and nobody the others"
    fi
}

{ [ $# = 0 ] || [ "$*" = --files ]; } || {
    echo "Usage: tools/check_dist.sh [--files]" >&2
    exit 2
}
room=$(mktemp -d)
trap 'rm -rf "$room"' EXIT
trap 'exit 1' HUP INT TERM
check_files
if [ $# = 0 ]; then
    check_sources
    command -v python3 >/dev/null || fail "checking the other files needs python3"
    python3 -I tools/release.py --check
    check_signature
fi
