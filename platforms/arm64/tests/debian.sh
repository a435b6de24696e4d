#!/bin/sh
# platforms/arm64/tests/debian.sh FOLDER PACKAGE..: unpacks these packages of Debian 12 for arm64, and everything that they depend
# on, into FOLDER. Nothing is installed. The packages stay in ${XDG_CACHE_HOME:-/var/cache}/bcs for the next time.
set -eu
folder=$1
shift
cache=${XDG_CACHE_HOME:-/var/cache}/bcs/arm64
archives=$cache/debian-12-$*

# apt ARGUMENT..: an apt that knows of no installed package, and of no processor except arm64.
apt() {
    apt-get -qq -o APT::Architecture=arm64 -o APT::Architectures=arm64 -o Dir::Etc::sourcelist="$cache/sources" \
        -o Dir::Etc::sourceparts=/dev/null -o Dir::State="$cache/state" -o Dir::State::status=/dev/null \
        -o Dir::Cache="$cache" -o Dir::Cache::archives="$archives" "$@"
}

fetch() {
    local key=/usr/share/keyrings/debian-archive-keyring.gpg
    mkdir -p "$cache/state/lists/partial" "$archives/partial"
    echo "deb [signed-by=$key] http://deb.debian.org/debian bookworm main" >"$cache/sources"
    apt update
    apt install -y --download-only --no-install-recommends "$@"
    touch "$archives/whole"
}

if [ ! -e "$archives/whole" ]; then
    fetch "$@" >&2
fi
mkdir -p "$folder"
for package in "$archives"/*.deb; do
    dpkg-deb -x "$package" "$folder"
done
