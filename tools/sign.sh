#!/bin/sh
# Signs with a maintainer's key: `tools/sign.sh [--release] KEY`. KEY is a private key of ssh, outside of the repository, or the
# public part of one that ssh-agent has. Run it after the gate has passed with this dist/.
#
# It writes dist/SHA256SUMS.sig, and adds the public part, KEY.pub, to dist/SIGNERS if it isn't there. With --release, it also
# writes dist/RELEASE, which lists all files that git tracks as they are here, and its signature dist/RELEASE.sig.
set -eu
unset CDPATH
is_release=no
[ "${1-}" != --release ] || {
    is_release=yes
    shift
}
[ $# = 1 ] || {
    echo "Usage: tools/sign.sh [--release] KEY" >&2
    exit 2
}
key=$(readlink -f "$1") || key=
cd "$(dirname "$(readlink -f "$0")")/.."

fail() {
    echo "tools/sign.sh: $1; dist/ is as it was" >&2
    exit 1
}

[ -f "$key" ] || fail "there is no key $1"
case $key in
    "$(pwd -P)"/*) fail "the key $1 is in the repository, where it could be committed" ;;
esac
command -v ssh-keygen >/dev/null || fail "signing needs ssh-keygen (Debian's openssh-client)"
public=${key%.pub}.pub
read -r kind code rest <"$public" || [ -n "${code-}" ] || fail "there is no public key $public"
tools/check_dist.sh --files || fail "only a whole dist/ can be signed"
grep -q '^[0-9a-f]*  BUILT_FROM$' dist/SHA256SUMS || fail "SHA256SUMS doesn't list BUILT_FROM: run tools/make_dist.sh and tools/take_dist.sh"

room=$(mktemp -d)
trap 'rm -rf "$room"' EXIT
trap 'exit 1' HUP INT TERM
signer="maintainer namespaces=\"bcs-dist,bcs-release\" $kind $code"
[ ! -e dist/SIGNERS ] || cp dist/SIGNERS "$room/SIGNERS"
grep -qxF -e "$signer" "$room/SIGNERS" 2>/dev/null || printf '%s\n' "$signer" >>"$room/SIGNERS"

# sign FILE NAME NAMESPACE: writes the signature of a file to $room/NAME.sig. The namespace keeps a signature for one purpose from
# counting for another.
sign() {
    ssh-keygen -Y sign -f "$key" -n "$3" <"$1" >"$room/$2.sig" || fail "$key can't sign, or $public isn't its public part"
    ssh-keygen -Y verify -f "$room/SIGNERS" -I maintainer -n "$3" -s "$room/$2.sig" <"$1" || fail "the signature can't be verified"
}

sign dist/SHA256SUMS SHA256SUMS bcs-dist
rm -f dist/RELEASE dist/RELEASE.sig
cp "$room/SIGNERS" "$room/SHA256SUMS.sig" dist
if [ "$is_release" = yes ]; then
    fail() {
        rm -f dist/RELEASE dist/RELEASE.sig
        echo "tools/sign.sh: $1; dist/ is signed, and it is no release" >&2
        exit 1
    }
    python3 -I tools/release.py --print >"$room/RELEASE" || fail "the files can't be listed"
    sign "$room/RELEASE" RELEASE bcs-release
    cp "$room/RELEASE" "$room/RELEASE.sig" dist
    tools/check_dist.sh || fail "this can't be released"
fi
echo "signed: commit all changes in dist/"
