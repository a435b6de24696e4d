#!/bin/sh
# tests/unpack_debian.sh KIND FOLDER: unpacks a Debian 12 without this project's toolchain into FOLDER. Each kind is made once for each
# machine, by debootstrap, and stored as a tarball in ${XDG_CACHE_HOME:-/var/cache}/bcs:
#
#     plain       what debootstrap makes of its smallest variant, minbase
#     scripts     with Python and Node, and without a compiler
#     compiler    with gcc and pkg-config
set -eu
cache=${XDG_CACHE_HOME:-/var/cache}/bcs

packages_of() {
    case $1 in
        plain) ;;
        scripts) echo python3-venv nodejs ;;
        compiler) echo gcc libc6-dev pkg-config ;;
        *)
            echo "unpack_debian: no such kind: $1" >&2
            exit 2
            ;;
    esac
}

# make KIND: in memory, and with mounts that no other process sees, so that none is left behind.
make() {
    local packages
    packages=$(packages_of "$1")
    room=$(mktemp -d)
    mount -t tmpfs none "$room"
    trap 'umount -l "$room" && rmdir "$room"' EXIT
    if [ "$1" = plain ]; then
        debootstrap --variant=minbase bookworm "$room" http://deb.debian.org/debian
    else
        tar -C "$room" -xf "$cache/debian-12-plain.tar"
        chroot "$room" apt-get -o Acquire::Retries=5 update
        # shellcheck disable=SC2086 # several packages
        DEBIAN_FRONTEND=noninteractive chroot "$room" apt-get -o Acquire::Retries=5 install -y --no-install-recommends $packages
    fi
    rm -rf "$room"/var/lib/apt/lists/* "$room"/var/cache/apt/*.bin "$room"/var/cache/apt/archives/*.deb
    mkdir -p "$cache"
    tar -C "$room" --one-file-system -cf "$cache/new-$$.tar" .
    mv "$cache/new-$$.tar" "$cache/debian-12-$1.tar"
}

if [ "$1" = --make ]; then
    make "$2" >&2
    exit
fi
kind=$1 folder=$2
packages_of "$kind" >/dev/null
for needed in plain "$kind"; do
    [ -e "$cache/debian-12-$needed.tar" ] || unshare --mount "$0" --make "$needed"
done
mkdir -p "$folder"
tar -C "$folder" -xf "$cache/debian-12-$kind.tar"
