#!/bin/sh
# Tests that ./test --dist finds what somebody changed, in a copy of the sources: files in dist/, its signature, sources, and
# files that git ignores. Needs Debian's openssh-client, to sign with a key that it makes.
set -eu
unset CDPATH
cd "$(dirname "$0")/.."
. tests/dist_copy.sh

# accepts WHAT TEXT [VARIABLE=VALUE..]: with these variables, ./test --dist passes, and says the text.
accepts() {
    local what="$1" text="$2"
    shift 2
    { env "$@" ./test --dist >test.log 2>&1 && tail -n 1 test.log | grep -qx '2 passed, 0 failed' && grep -q "$text" test.log; } || {
        cat test.log
        fail "./test --dist, $what"
    }
}

# finds WHAT TEXT [VARIABLE=VALUE..]: with these variables, ./test --dist fails, and says the text. Then dist/ is restored.
finds() {
    local what="$1" text="$2"
    shift 2
    ! env "$@" ./test --dist >test.log 2>&1 || fail "./test --dist accepts $what"
    { tail -n 1 test.log | grep -qx '1 passed, 1 failed' && grep -q "FAILED: .*$text" test.log; } || {
        cat test.log
        fail "./test --dist doesn't say: $text"
    }
    rm -rf dist
    cp -a taken dist
}

# add FILE: git tracks one file more.
add() {
    echo planted >"$1"
    git add "$1"
}

test_files() {
    local name
    accepts "as taken" '^dist: unsigned$'
    echo other >>dist/x86_64-linux/bcs
    finds "a changed byte" "doesn't have exactly the files that SHA256SUMS lists"
    rm dist/web/bcs.wasm
    finds "a missing file" "doesn't have exactly the files that SHA256SUMS lists"
    for name in more .more web/more SHA256SUMS.asc; do
        echo more >"dist/$name"
        finds "an additional file, $name" "doesn't have exactly the files that SHA256SUMS lists"
        mkdir "dist/$name"
        finds "an additional folder, $name" "has a folder in which SHA256SUMS lists no file"
        ln -s bcs.wasm "dist/$name"
        finds "an additional link, $name" "may only have files and folders"
        mkfifo "dist/$name"
        finds "an additional FIFO, $name" "may only have files and folders"
    done
    printf 'more\n' >"$(printf 'dist/\033[2J\nmore')"
    finds "a file with a line break in its name" "doesn't have exactly the files that SHA256SUMS lists"
    ! grep -q "$(printf '\033')" test.log || fail "./test --dist prints control characters of a name"
    rm -r dist
    ln -s taken dist
    finds "a link in place of dist/" "isn't a folder"
}

test_sources() {
    echo >>crates/bcs/src/main.rt
    touch -d 2001-01-01 crates/bcs/src/main.rt
    tools/dist_sources.sh >out/sources
    finds "a changed source" "was built from other sources than these"
    label "$(tools/dist_sources.sh)" >dist/BUILT_FROM
    finds "a changed source, and a changed BUILT_FROM" "doesn't have exactly the files that SHA256SUMS lists"
    git checkout -q crates
    add bindings/python/bcs_proved/types.py
    accepts "a file that dist/ isn't made from" '^dist: BUILT_FROM names these sources$'
    git rm -qf bindings/python/bcs_proved/types.py
    echo "tampering: ./test --dist finds what is changed in dist/ and in its sources"
}

# sign [--release] KEY: signs with the key. From then on, that is the dist/ that is restored.
sign() {
    tools/sign.sh "$@" >sign.log 2>&1 || {
        cat sign.log
        fail "tools/sign.sh"
    }
    rm -r taken
    cp -a dist taken
}

# cannot_sign TEXT KEY: tools/sign.sh refuses the key with this text, and dist/ is as it was.
cannot_sign() {
    ! tools/sign.sh "$2" >sign.log 2>&1 || fail "tools/sign.sh $2 signs"
    { grep -q "$1" sign.log && diff -r taken dist; } || {
        cat sign.log
        fail "tools/sign.sh $2 doesn't say: $1"
    }
}

test_signing() {
    local name
    for name in key other; do
        ssh-keygen -q -t ed25519 -N '' -C "a comment" -f "$keys/$name"
    done
    cp "$keys/key" "$keys/key.pub" .
    cannot_sign "is in the repository" key
    ln -s "$room/key" "$keys/link"
    cannot_sign "is in the repository" "$keys/link"
    rm key key.pub
    cannot_sign "there is no key" "$keys/none"
    cp "$keys/key" "$keys/lone"
    cannot_sign "there is no public key" "$keys/lone"
    cp "$keys/other.pub" "$keys/lone.pub"
    cannot_sign "isn't its public part" "$keys/lone"
    sed -i '/BUILT_FROM/d' dist/SHA256SUMS
    ! tools/sign.sh "$keys/key" >sign.log 2>&1 || fail "tools/sign.sh signs a SHA256SUMS that doesn't list BUILT_FROM"
    echo other >>dist/x86_64-linux/bcs
    ! tools/sign.sh "$keys/key" >sign.log 2>&1 || fail "tools/sign.sh signs a damaged dist/"
    rm -rf dist
    cp -a taken dist
    sign "$keys/key"
    grep -qx 'maintainer namespaces="bcs-dist,bcs-release" ssh-ed25519 [^ ]*' dist/SIGNERS \
        || fail "tools/sign.sh writes another dist/SIGNERS"
    accepts "signed" "$no_release"
    sign "$keys/other"
    { accepts "signed by another maintainer" "$no_release" && [ "$(wc -l <dist/SIGNERS)" = 2 ]; } || fail "tools/sign.sh, a second key"
    sign "$keys/key"
    [ "$(wc -l <dist/SIGNERS)" = 2 ] || fail "tools/sign.sh adds a key again"
}

# verified BLOCK KEYS: runs the commands of SECURITY.md in its first or second block with these public keys.
verified() {
    sed 's/^/maintainer /' "$2" >"$keys/maintainers"
    awk -v block="$1" '/^```/ { at++; next } at == 2 * block - 1' "$top/SECURITY.md" >"$keys/commands"
    [ "$(grep -c '' "$keys/commands")" = $((4 - $1)) ] || fail "SECURITY.md doesn't have the commands of block $1"
    sed -i "s,\([^ ]*\)/maintainers\.keys,$keys/maintainers," "$keys/commands"
    grep -qF "$keys/maintainers" "$keys/commands" || fail "the commands of SECURITY.md read no file maintainers.keys"
    sh -ec "$(cat "$keys/commands")" >verified.log 2>&1
}

test_signature() {
    verified 2 "$keys/key.pub" || fail "the commands of SECURITY.md refuse a signed dist/"
    ! verified 2 "$keys/other.pub" || fail "the commands of SECURITY.md accept a signature of another key"
    tools/compare_dist.sh >compare.log || fail "tools/compare_dist.sh compares the signature"
    grep -q 'byte for byte' compare.log || fail "tools/compare_dist.sh doesn't compare a signed dist/"
    rm dist/SHA256SUMS.sig
    finds "a missing signature" "isn't signed"
    rm dist/SIGNERS
    finds "a signature of nobody" "no dist/SIGNERS that says whose"
    sed -i '/BUILT_FROM/d' dist/SHA256SUMS
    ssh-keygen -Y sign -f "$keys/key" -n bcs-dist <dist/SHA256SUMS >dist/SHA256SUMS.sig 2>sign.log
    finds "signed checksums without BUILT_FROM" "doesn't list BUILT_FROM"
    (cd dist && echo >>LIBRARIES && sum .)
    finds "a change with its checksum" "the signature of SHA256SUMS is wrong"
    echo >>crates/bcs/src/main.rt
    relabel "$(tools/dist_sources.sh)"
    finds "a changed source, and a changed BUILT_FROM with its checksum" "the signature of SHA256SUMS is wrong"
    git checkout -q crates
    ssh-keygen -Y sign -f "$keys/key" -n other <dist/SHA256SUMS >dist/SHA256SUMS.sig 2>sign.log
    finds "a signature for another purpose" "the signature of SHA256SUMS is wrong"
    sed 's/.*/maintainer &/' "$keys/other.pub" >dist/SIGNERS
    finds "a signature of a key that isn't in dist/SIGNERS" "the signature of SHA256SUMS is wrong"
    finds "a signature without ssh-keygen" "needs ssh-keygen" PATH="$room/few"
    mv .git aside
    tools/compare_dist.sh --committed >compare.log || fail "compare --committed refuses a signed dist/ without a history"
    mv aside .git
    echo >>out/dist/LIBRARIES
    sum out/dist
    tools/take_dist.sh >take.log
    { grep -q 'run tools/sign.sh' take.log && [ ! -e dist/SHA256SUMS.sig ]; } || fail "tools/take_dist.sh keeps the signature of older files"
    finds "new files that nobody has signed" "isn't signed"
    echo "tampering: ./test --dist finds a wrong signature, and none where there has to be one"
}

# changes WHAT COMMAND..: after the command, ./test --dist finds one file that isn't the release's. Then it is restored.
changes() {
    local what="$1"
    shift
    "$@"
    finds "$what" 'changed since the release: 1 files'
    git reset -q --hard
    git clean -qfd bindings tests tools
}

append() {
    echo >>"$1"
}

# link FILE: puts a link to an equal file in the place of a file.
link() {
    cp "$1" "$keys/linked"
    ln -sf "$keys/linked" "$1"
}

# What users run and the checksum of the sources doesn't cover.
run_by_users='bcs bcs-registry install test tools/packaging/completions.sh tools/check_dist.sh bindings/python/bcs_proved/registries.py
    bindings/go/calls.go bindings/java/src/bcsproved/Bcs.java bindings/postgresql/bcs.control bindings/rust/build.rs
    bindings/sql/words.h bindings/sqlite/bcs_sqlite.c'

test_release() {
    local name
    # shellcheck disable=SC2086 # these are several names
    (cd "$top" && cp --parents -t "$room" $run_by_users)
    git add install
    commit "sign"
    sign --release "$keys/key"
    accepts "a release that isn't committed yet" "$signed"
    commit "release"
    accepts "a release" "$signed"
    verified 1 "$keys/key.pub" || fail "the commands of SECURITY.md refuse a release"
    ! verified 1 "$keys/other.pub" || fail "the commands of SECURITY.md accept a release of another key"
    append install
    ! verified 1 "$keys/key.pub" || fail "the commands of SECURITY.md accept a changed file"
    git reset -q --hard
    for name in $run_by_users; do
        append "$name"
    done
    finds "changed files that users run" "changed since the release: $(echo "$run_by_users" | wc -w) files"
    for name in $run_by_users; do
        grep -qxF "    $name" test.log || fail "./test --dist doesn't name $name"
    done
    git reset -q --hard
    changes "a file that can be run" chmod +x crates.txt
    changes "a file that can't be run" chmod -x install
    changes "a missing file" rm install
    changes "a link in place of a file" link install
    changes "an additional file" add tools/more
    changes "an additional file with a line break in its name" add "$(printf 'tools/m\nore')"
    changes "another letter" mv bcs BCS
    ssh-keygen -Y sign -f "$keys/key" -n bcs-dist <dist/RELEASE >dist/RELEASE.sig 2>sign.log
    finds "a signature of a list for another purpose" "the signature of RELEASE is wrong"
    rm dist/RELEASE.sig
    finds "a list that nobody signed" "RELEASE is missing or isn't signed"
    rm dist/RELEASE
    finds "a signature of no list" "RELEASE is missing or isn't signed"
    rm dist/RELEASE dist/RELEASE.sig
    accepts "without the list" "$no_release"
    ! grep -q '^dist: signed' test.log || fail "./test --dist says that a tree without dist/RELEASE is signed"
    rm -r dist
    cp -a taken dist
    echo "tampering: ./test --dist finds what was changed since a release"
}

# in_archive STATUS TEXT: in a copy without git's files, ./test --dist ends with this status, and says the text.
in_archive() {
    local status=0
    (cd "$keys/archive" && ./test --dist) >test.log 2>&1 || status=$?
    { [ "$status" = "$1" ] && grep -q "$2" test.log; } || {
        cat test.log
        fail "./test --dist ends with $status without git: $2"
    }
}

test_without_git() {
    git checkout -q --detach
    accepts "a release at no branch" "$signed"
    git checkout -q main
    git clone -q . "$keys/archive"
    rm -rf "$keys/archive/.git"
    mkdir -p "$keys/archive/out" "$keys/archive/tests/__pycache__"
    echo made | tee "$keys/archive/out/file" >"$keys/archive/tests/__pycache__/file.pyc"
    in_archive 0 "$signed"
    in_archive 0 'git knows nothing of bindings/python'
    touch "$keys/archive/tests/argparse.py"
    in_archive 1 'changed since the release: 1 files'
    echo >>"$keys/archive/install"
    in_archive 1 'changed since the release: 2 files'
    rm -r "$keys/archive" dist/RELEASE* taken/RELEASE*
    echo "tampering: ./test --dist finds what was changed since a release without git, too"
}

# wrong FILE TEXT COMMAND..: after the command, ./test --dist names the file and says the text.
wrong() {
    local file="$1" text="$2"
    shift 2
    "$@"
    finds "$*" "the rights of these files"
    grep -qF -e "    $file $text" test.log || {
        cat test.log
        fail "./test --dist doesn't say: $file $text"
    }
}

test_rights() {
    wrong bcs "is setuid" chmod u+s bcs
    chmod u-s bcs
    wrong tools/sign.sh "is setuid or setgid" chmod g+s tools/sign.sh
    chmod g-s tools/sign.sh
    wrong test "can be written by others" chmod o+w test
    chmod o-w test
    wrong tools "can be written by others" chmod o+w tools
    chmod o-w tools
    wrong dist/x86_64-linux/bcs "has a name elsewhere" ln dist/x86_64-linux/bcs "$keys/name"
    wrong tools/sign.sh "has a name elsewhere" ln tools/sign.sh "$room/name"
    rm "$room/name"
    wrong bindings/c "is a link in place of a folder" link_folder bindings/c
    rm bindings/c
    mv "$keys/folder" bindings/c
    ln bcs bindings/bcs
    git add bindings/bcs
    accepts "two names of one file, which git tracks" ''
    git rm -qf bindings/bcs
    if [ "$(id -u)" = 0 ]; then
        wrong bcs "has capabilities" capable bcs
        cp bcs copy && mv copy bcs
    elif [ "${CI-}" = true ]; then
        fail "only root can give capabilities"
    else
        echo "tampering: skipped: capabilities, which only root can give"
    fi
    accepts "with the rights as they were" ''
    echo "tampering: ./test --dist finds rights of others, and names elsewhere"
}

# link_folder FOLDER: puts a link to an equal folder in its place.
link_folder() {
    mv "$1" "$keys/folder"
    ln -s "$keys/folder" "$1"
}

# capable FILE: gives a file the capability to write everywhere.
capable() {
    python3 -c '
import os, struct, sys
os.setxattr(sys.argv[1], "security.capability", struct.pack("<5I", 0x02000001, 2, 0, 0, 0))' "$1"
}

# foreign FILE..: ./test --dist names each file, which git doesn't track. Then it is removed.
foreign() {
    local name
    for name; do
        finds "$name" "git doesn't track these files"
        grep -qF -e "    $name" test.log || fail "./test --dist doesn't name $name"
        rm -r "$name"
    done
}

test_modules() {
    local name
    for name in json.py sitecustomize.py JSON.PY re.cpython-311-x86_64-linux-gnu.so .hidden.py; do
        echo >"bindings/python/$name"
        foreign "bindings/python/$name"
    done
    mkdir bindings/python/json
    echo >bindings/python/json/__init__.py
    foreign bindings/python/json/__init__.py
    rmdir bindings/python/json
    echo >bindings/python/bcs_proved/more_types.py
    foreign bindings/python/bcs_proved/more_types.py
    ln -s "$keys" bindings/python/json
    foreign bindings/python/json
    mkdir -p bindings/python/bcs_proved/__pycache__
    echo >bindings/python/bcs_proved/__pycache__/errors.pyc
    accepts "what Python compiled" 'git tracks all modules in bindings/python'
    echo 'raise SystemExit("2 passed, 0 failed")' >tests/argparse.py
    echo other >>dist/x86_64-linux/bcs
    finds "a changed byte beside a module in tests/" "doesn't have exactly the files"
    rm tests/argparse.py
    echo "tampering: ./test --dist finds modules that git doesn't track"
}

# tracks FILE: git tracks a file that it ignores, and ./test --dist finds it.
tracks() {
    mkdir -p "$(dirname "$1")"
    echo planted >"$1"
    git add -f "$1"
    finds "the tracked file $1" 'git tracks what only a build may make'
    grep -qF "$1" test.log || fail "./test --dist doesn't name $1"
    git rm -q --cached "$1"
    rm "$1"
}

test_ignored_files() {
    local name
    for name in out/proved crates/bcs/out/bcs bindings/web/out/deep/er/file tests/__pycache__/test_command.cpython-311.pyc Out/x; do
        tracks "$name"
    done
    ln -s crates out2
    git add out2
    git mv out2 bindings/out
    finds "a tracked link" 'git tracks what only a build may make'
    git rm -qf bindings/out
    echo mine >crates/bcs/out/bcs
    accepts "with a program that was built" '^tracked: none of '
    rm -rf .git
    finds "a program in out/ without git" "git can't tell who made crates/bcs/out/bcs"
    accepts "a program that you built, without git" '^tracked: git knows nothing' BCS_OWN_BUILD=1
    rm crates/bcs/out/bcs
    accepts "without git" '^tracked: git knows nothing'
    mkdir "$keys/repository"
    mv "$room/tools" "$room/crates" "$room/crates.txt" "$room/bindings" "$room/examples" "$room/dist" "$room/tests" "$room/test" \
        "$room/bcs" "$keys/repository"
    git init -q "$keys"
    cd "$keys/repository"
    echo planted >crates/bcs/out/bcs
    ! tools/check_tracked.sh >test.log || fail "the tracked files of a folder above count"
    echo "tampering: ./test --dist finds tracked files in folders that git ignores"
}

no_release='^dist: no release: a key in dist/SIGNERS has signed the files in dist/, and nobody the others$'
signed='^dist: signed by a key in dist/SIGNERS; '
top=$PWD
make_copy
make_history
make_tools
ln -s "$(python3 -c 'import sys; print(sys.executable)')" few/python3
keys=$(mktemp -d)
trap 'rm -rf "$room" "$keys"' EXIT
test_files
test_sources
test_rights
test_modules
test_signing
test_signature
test_release
test_without_git
test_ignored_files
