# shellcheck shell=sh
# For tests/dist.sh, tests/launcher.sh and tests/tampering.sh: a copy of the sources in a folder of its own, with a history,
# and with stand-ins for the toolchain and for what it makes. It is to be read at the top of the repository.
set -eu

fail() {
    echo "$(basename "$0"): FAILED: $1"
    exit 1
}

room=$(mktemp -d)
trap 'rm -rf "$room"' EXIT
trap 'exit 1' HUP INT TERM
hostile=$room/hostile
mkdir "$hostile"

# sum FOLDER: writes its SHA256SUMS, for the files that are there.
sum() (
    cd "$1"
    find BUILT_FROM LIBRARIES aarch64-linux vectors web x86_64-linux x86_64-windows ! -type d | LC_ALL=C sort \
        | xargs sha256sum >SHA256SUMS
)

# script FILE LINE..: writes a program that runs these lines.
script() {
    local file="$1"
    shift
    printf '%s\n' '#!/bin/sh' "$@" >"$file"
    chmod +x "$file"
}

# program FILE WORD: writes a program that prints the word and each of its arguments in angle brackets, and ends with status 3.
program() {
    script "$1" "printf '%s' '$2'" "printf ' <%s>' \"\$@\"" 'exit 3'
}

# label SOURCES [KIT]: prints what BUILT_FROM has for them.
label() {
    printf '%s\nsources %s\n' "${2:-kit one}" "$1"
}

# relabel SOURCES [KIT]: writes dist/BUILT_FROM, with its checksum.
relabel() {
    label "$@" >dist/BUILT_FROM
    sum dist
}

# make_built: writes out/dist as the toolchain would make it.
make_built() {
    local name
    for name in x86_64-linux aarch64-linux x86_64-windows web vectors; do
        mkdir -p "out/dist/$name"
    done
    program out/dist/x86_64-linux/bcs taken
    program out/dist/x86_64-linux/libbcs.so library
    program out/dist/aarch64-linux/bcs arm
    program out/dist/aarch64-linux/libbcs.so library
    echo archive >out/dist/aarch64-linux/libbcs.a
    echo module >out/dist/web/bcs.wasm
    echo dll >out/dist/x86_64-windows/bcs.dll
    echo line >out/dist/vectors/aptos.jsonl
    echo 'std - -' >out/dist/LIBRARIES
    tools/dist_sources.sh --built-from >out/dist/BUILT_FROM
    sum out/dist
}

make_copy() {
    tools/dist_sources.sh --list >"$room/sources"
    xargs -d '\n' cp --parents -t "$room" <"$room/sources"
    mkdir -p "$room/bin" "$room/dist" "$room/tests"
    cp bcs bcs-registry install test .gitattributes .gitignore "$room"
    cp tools/check_dist.sh tools/check_tracked.sh tools/compare_dist.sh tools/dist_sources.sh tools/release.py tools/sign.sh \
        tools/take_dist.sh "$room/tools"
    cp tests/test_command.py "$room/tests"
    cp dist/README.md "$room/dist"
    cd "$room"
    mkdir -p crates/bcs/out
    export PATH="$room/bin:$PATH" KIT=one
    # shellcheck disable=SC2016 # $KIT is for the script
    script bin/rt 'echo "kit $KIT"'
    script tools/build.py 'echo >>builds' 'cp bin/made crates/bcs/out/bcs'
    make_built
    CDPATH=$hostile tools/take_dist.sh >take.log
    cp -a dist taken
}

# commit NAME: commits the sources and dist/ as they are.
commit() {
    git add -A -- crates crates.txt bindings platforms tools dist examples tests bcs bcs-registry test .gitattributes .gitignore
    git commit -qm "$1"
}

# make_history: makes a repository, without the settings of this machine. `taken_in` is its first commit.
make_history() {
    local name names
    names=$(git rev-parse --local-env-vars)
    for name in $names; do
        unset "$name"
    done
    export HOME="$room" GIT_CONFIG_NOSYSTEM=1 GIT_AUTHOR_NAME=test GIT_COMMITTER_NAME=test
    export GIT_AUTHOR_EMAIL=test@test GIT_COMMITTER_EMAIL=test@test
    git config --global core.fsync none
    git init -q -b main .
    commit "dist: rebuild"
    taken_in=$(git rev-parse HEAD)
}

# edit_source: the sources change.
edit_source() {
    echo >>crates/bcs/src/main.rt
}

# plant: writes another program, with its checksum.
plant() {
    echo other >>dist/x86_64-linux/bcs
    sum dist
}

# back: everything is as it was at the first commit.
back() {
    git checkout -qf main
    git reset -q --hard "$taken_in"
    git clean -qfd -- dist crates
}

# make_tools: fills a folder with all that the scripts need, except git and rt.
make_tools() {
    local tool
    mkdir few
    for tool in awk cat cmp cut diff dirname env find grep head mktemp paste readlink rm sed sha256sum sort tail tr uname wc; do
        ln -s "$(command -v "$tool")" few
    done
}
