#!/bin/sh
# Tests tools/take_dist.sh and tools/compare_dist.sh in a copy of the sources, and that no script obeys CDPATH.
set -eu
unset CDPATH
cd "$(dirname "$0")/.."
. tests/dist_copy.sh

# ---- CDPATH: every script that changes its folder has to drop it first, since it could lead the script to a folder of the
# same name elsewhere.

# find_scripts: prints the names of the shell scripts that change their folder.
find_scripts() {
    grep -rlIE --exclude-dir=.git --exclude-dir=out --exclude-dir=crates '^#!.*[/ ](ba|da)?sh$' . >"$room/scripts"
    xargs grep -lE '(^|[ (;])cd ' <"$room/scripts"
}

# ignores_cdpath COMMAND..: a command prints the same with a CDPATH that has all of its folders.
ignores_cdpath() {
    CDPATH=$hostile "$@" >"$room/with" 2>&1 || fail "$* with CDPATH set: $(tail -n 1 "$room/with")"
    { "$@" >"$room/without" 2>&1 && cmp "$room/without" "$room/with"; } || fail "$* obeys CDPATH"
}

test_cdpath() {
    local script scripts=0
    find_scripts >"$room/found"
    while IFS= read -r script; do
        awk '/^unset CDPATH$/ { exit } !/^ *#/ && /(^|[ (;])cd / { print FILENAME ":" FNR ": cd before unset CDPATH"; exit 1 }' \
            "$script" || fail "a script obeys CDPATH"
        scripts=$((scripts + 1))
    done <"$room/found"
    [ "$scripts" -ge 20 ] || fail "only $scripts scripts that change their folder were found"
    for script in dist/x86_64-linux dist/web tools/packaging bindings/c .ci; do
        mkdir -p "$hostile/$script"
    done
    echo mine >"$hostile/dist/x86_64-linux/bcs"
    cp -a "$hostile" "$room/before"
    ignores_cdpath tools/dist_sources.sh --list
    ignores_cdpath sh test --help
    ignores_cdpath sh install --help
    ignores_cdpath tools/packaging/pkg_config.sh /usr
    ignores_cdpath tools/packaging/manual.sh ./bcs
    echo "dist: $scripts scripts drop CDPATH before they change their folder"
}

# ---- tools/compare_dist.sh

# what was done to dist/ last
change=

# refused TEXT [VARIABLE=VALUE..]: with these variables compare fails, and says the text.
refused() {
    local text="$1"
    shift
    ! env "$@" tools/compare_dist.sh >compare.log 2>&1 || fail "compare accepts $change: $text"
    grep -q "^dist: FAILED: .*$text" compare.log || {
        cat compare.log
        fail "compare doesn't say: $text"
    }
}

# fails WHAT: compare refuses what was done to dist/, and says what to do. Then dist/ is restored.
fails() {
    change=$1
    refused 'run tools/take_dist.sh$'
    rm -rf dist
    cp -a taken dist
}

# passes WHAT TEXT [VARIABLE=VALUE..]: with these variables compare passes, and its last line says the text.
passes() {
    local what="$1" text="$2"
    shift 2
    { env "$@" tools/compare_dist.sh >compare.log 2>&1 && tail -n 1 compare.log | grep -q "$text"; } || {
        cat compare.log
        fail "compare, $what"
    }
}

# test_changed_files STATE: whatever is changed in dist/ is found. STATE says whether the sources have changed since.
test_changed_files() {
    local name
    echo modulE >dist/web/bcs.wasm
    fails "a changed byte ($1)"
    rm dist/aarch64-linux/libbcs.a
    fails "a missing file ($1)"
    echo >dist/web/more
    fails "an additional file ($1)"
    ln -s bcs.wasm dist/web/more
    fails "an additional link ($1)"
    ln -s bcs.wasm dist/web/more
    sum dist
    fails "an additional link, with its sum ($1)"
    for name in more .more web/more; do
        mkdir "dist/$name"
        fails "an additional folder, $name ($1)"
    done
    for name in more .more web/more; do
        mkfifo "dist/$name"
        fails "an additional FIFO, $name ($1)"
    done
    for name in more .more README.txt BUILT_FROM.old web/README.md web/SIGNERS web/SHA256SUMS.sig web/RELEASE x86_64-linux/BUILT_FROM; do
        echo more >"dist/$name"
        fails "an additional file, $name ($1)"
    done
    for name in more SIGNERS SHA256SUMS.sig RELEASE RELEASE.sig; do
        ln -s README.md "dist/$name"
        fails "an additional link, $name ($1)"
    done
    for name in web README.md SHA256SUMS BUILT_FROM; do
        mv "dist/$name" aside
        ln -s "$room/aside" "dist/$name"
        fails "a link in place of $name ($1)"
        rm -r aside
    done
    mv dist/web/bcs.wasm aside
    ln -s ../../aside dist/web/bcs.wasm
    fails "a link in place of a file ($1)"
    rm aside
    chmod -x dist/x86_64-linux/bcs
    fails "a program that can't be run ($1)"
    plant
    fails "another program, with its sum ($1)"
    rm dist/aarch64-linux/libbcs.a
    sum dist
    fails "a file that is left out, with its sum ($1)"
    rm dist/README.md
    fails "no README.md ($1)"
    echo >>dist/README.md
    refused "dist/README.md has changes that aren't committed"
    rm -r dist
    ln -s taken dist
    refused "dist/ isn't a folder"
    rm dist
    cp -a taken dist
}

# test_changed_lists STATE: the same for a changed SHA256SUMS or BUILT_FROM.
test_changed_lists() {
    sed -i '1s/^./x/' dist/SHA256SUMS
    fails "a changed sum ($1)"
    sed -i 1d dist/SHA256SUMS
    fails "a sum that is missing ($1)"
    rm dist/BUILT_FROM
    fails "no BUILT_FROM ($1)"
    : >dist/BUILT_FROM
    fails "an empty BUILT_FROM ($1)"
    label '' >dist/BUILT_FROM
    fails "a BUILT_FROM with no checksum ($1)"
    { cat taken/BUILT_FROM && tools/dist_sources.sh; } >dist/BUILT_FROM
    fails "a BUILT_FROM with two ($1)"
}

test_changes() {
    passes "what was just taken" 'byte for byte'
    test_changed_files current
    test_changed_lists current
    edit_source
    passes "a changed source" "^dist: OLDER .*kit one built it in $taken_in$"
    test_changed_files older
    test_changed_lists older
    back
    mv out/dist/web aside
    refused "isn't what kit one builds"
    mv aside out/dist/web
    echo "dist: compare refuses a byte, a file, a link or a sum that is changed, left out or added"
}

# test_other_kit: the same sources, and another toolchain: all bytes count, whatever it is called.
test_other_kit() {
    label "$(tools/dist_sources.sh)" "kit other" >out/dist/BUILT_FROM
    passes "another kit" '9 files are byte for byte what kit other builds .*kit one' KIT=other
    plant
    refused '(kit one) .* kit other ' KIT=other
    { grep -q 'dist/x86_64-linux/bcs' compare.log && ! grep -q 'web/bcs.wasm' compare.log; } || fail "compare names the wrong files"
    back
    label "$(tools/dist_sources.sh)" "kit third" >dist/BUILT_FROM
    plant
    commit "another label"
    refused '(kit third) .* kit other ' KIT=other
    back
    cp taken/BUILT_FROM out/dist/BUILT_FROM
}

# test_older_sources: the sources have changed: only a commit whose own sources are those of BUILT_FROM vouches for dist/.
test_older_sources() {
    edit_source
    commit "edit a source"
    passes "sources that were committed" "^dist: OLDER .* $taken_in$"
    mv out/dist aside
    passes "older, and nothing was built" '^dist: OLDER'
    mv aside out/dist
    relabel "$(printf '%064d' 7)"
    refused "has changes that aren't committed"
    commit "edit BUILT_FROM"
    refused "names neither these sources nor those of $(git rev-parse HEAD)"
    edit_source
    commit "edit a source again"
    refused "names neither these sources nor those of $(git rev-parse HEAD~)"
    back
}

test_planted_program() {
    edit_source
    plant
    commit "a program, its sum and a source"
    refused "names neither these sources nor those of"
    relabel "$(tools/dist_sources.sh)"
    git commit -qa --amend --no-edit
    refused "wasn't made from these sources"
    cp dist/BUILT_FROM out/dist
    refused "isn't what kit one builds"
    cp taken/BUILT_FROM out/dist
    back
    plant
    edit_source
    commit "a program and a source"
    git checkout -q HEAD~ crates
    commit "take the source back"
    refused "isn't what kit one builds"
    edit_source
    edit_source
    commit "edit a source"
    refused "names neither these sources nor those of"
    back
}

# test_merge: a merge that joins two changes of dist/ is a change of its own.
test_merge() {
    edit_source
    echo >>dist/LIBRARIES
    relabel "$(tools/dist_sources.sh)"
    commit "dist: rebuild"
    git checkout -qb side "$taken_in"
    echo >>dist/web/bcs.wasm
    sum dist
    commit "one file"
    git checkout -q main
    git merge -q -X theirs --no-edit side >merge.log
    sum dist
    git commit -qa --amend --no-edit
    edit_source
    commit "edit a source"
    passes "a merge whose own sources BUILT_FROM names" "^dist: OLDER .* $(git rev-parse HEAD~)$"
    git reset -q --hard HEAD~
    edit_source
    git commit -qa --amend --no-edit
    refused "names neither these sources nor those of $(git rev-parse HEAD)"
    back
    git branch -qD side
}

# test_hidden_source: the sources are those of a clone. Those of `git archive` obey attributes, by which a commit could show
# others.
test_hidden_source() {
    printf 'crates/bcs/src/more.rt export-ignore\n' >>.gitattributes
    label "$(tools/dist_sources.sh)" >dist/BUILT_FROM
    plant
    echo >crates/bcs/src/more.rt
    commit "hide a source"
    refused "names neither these sources nor those of"
    back
    echo "dist: compare refuses an edited BUILT_FROM, and compares bytes whatever the kit is called"
}

# test_committed: without the toolchain, dist/ has to be current and as in the last commit, even if all checksums are right.
test_committed() {
    local change
    for change in plant 'echo >>dist/README.md' 'touch dist/SIGNERS.old' edit_source 'chmod -x dist/x86_64-linux/bcs'; do
        tools/compare_dist.sh --committed >compare.log || fail "compare --committed refuses dist/ as it was committed"
        eval "$change"
        ! tools/compare_dist.sh --committed >compare.log || fail "compare --committed accepts: $change"
        back
    done
    plant
    ! tools/compare_dist.sh --committed >compare.log || fail "compare --committed accepts another program with its sum"
    grep -q "^dist: FAILED: dist/ has changes that aren't committed" compare.log || fail "compare --committed doesn't say what is wrong"
    mv .git aside
    ! tools/compare_dist.sh --committed >compare.log || fail "compare --committed accepts an unsigned dist/ without a history"
    grep -q "^dist: FAILED: dist/ is neither signed nor can it be compared with a commit" compare.log \
        || fail "compare --committed doesn't say that there is no history"
    mv aside .git
    back
    echo "dist: compare --committed refuses whatever isn't committed"
}

# test_history: without a history nobody can tell.
test_history() {
    edit_source
    commit "edit a source"
    git tag v1
    refused '(the tag v1) needs a current one'
    git tag -d v1 >tag.log
    git clone -q --depth 1 "file://$room" shallow
    (cd shallow && refused 'this clone is shallow')
    git clone -q "file://$room" whole
    (cd whole && passes "a whole clone" '^dist: OLDER')
    passes "variables that name another clone" '^dist: OLDER' GIT_DIR="$room/whole/.git" GIT_WORK_TREE="$room/whole"
    refused 'needs git$' PATH="$room/few"
    rm -rf shallow/.git
    (cd shallow && refused "git finds no history of this folder")
    mv .git aside
    refused "git finds no history of this folder"
    mv aside .git
    back
    rm -rf shallow whole
    echo "dist: compare refuses an older dist/ in a shallow clone, without git, or at a tag"
}

# ---- tools/take_dist.sh

# kept WHAT [VARIABLE=VALUE..]: with these variables take fails, and dist/ is as it was.
kept() {
    local what="$1"
    shift
    ! env "$@" tools/take_dist.sh >take.log 2>&1 || fail "take, $what"
    { diff -r taken dist && [ -z "$(find dist -name '.take*')" ]; } || {
        cat take.log
        fail "take leaves another dist/: $what"
    }
}

test_take() {
    local without_rt="PATH=$room/few:/usr/bin:/bin"
    kept "without the toolchain" "$without_rt"
    grep -q 'needs its command rt' take.log || fail "take doesn't say that the toolchain isn't there"
    script bin/rt
    kept "with a toolchain that prints nothing"
    # shellcheck disable=SC2016 # $KIT is for the script
    script bin/rt 'echo "kit $KIT"'
    mv out/dist aside
    kept "without the toolchain, and nothing was made" "$without_rt"
    ! tools/take_dist.sh nowhere 2>take.log || fail "take, a folder that doesn't exist"
    grep -q "run tools/make_dist.sh nowhere" take.log || fail "take makes a folder that is named"
    mv aside out/dist
    mv out/dist/web aside
    kept "a folder that lacks files"
    mv aside out/dist/web
    echo modulE >out/dist/web/bcs.wasm
    kept "a folder with another file"
    echo module >out/dist/web/bcs.wasm
    test_interrupted_take
    tools/take_dist.sh >take.log
    diff -r taken dist || fail "take, once more"
    echo "dist: take leaves the old files or the new ones"
}

# test_interrupted_take: take is interrupted at each of these renames, by an `mv` that counts them.
test_interrupted_take() {
    local number
    for number in 1 2 5 12; do
        rm -f moved
        script bin/mv "echo >>'$room/moved'" "[ \"\$(wc -l <'$room/moved')\" != $number ] || { kill -TERM \$PPID; exit 1; }" \
            "exec /bin/mv \"\$@\""
        kept "interrupted at its rename number $number"
        [ "$(wc -l <moved)" -ge "$number" ] || fail "take makes fewer than $number renames"
    done
    rm bin/mv
}

test_cdpath
make_copy
diff -r before hostile || fail "tools/take_dist.sh obeys CDPATH"
make_history
make_tools
test_changes
test_other_kit
test_older_sources
test_planted_program
test_merge
test_hidden_source
test_committed
test_history
test_take
