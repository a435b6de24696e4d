#!/bin/sh
# Tests ./bcs in a copy of the sources, and that ./bcs-registry, ./test and ./install find their own files.
set -eu
unset CDPATH
cd "$(dirname "$0")/.."
. tests/dist_copy.sh

# runs WHAT WORD [VARIABLE=VALUE..]: with these variables, ./bcs runs the program with that word and all arguments as they are,
# and says nothing.
runs() {
    local what="$1" word="$2" status=0
    shift 2
    env "$@" ./bcs encode '{}' "a  b" '' '*' '\x' >output 2>errors || status=$?
    { [ "$status" = 3 ] && [ "$(cat output)" = "$word <encode> <{}> <a  b> <> <*> <\\x>" ] && [ ! -s errors ]; } || {
        cat output errors
        fail "./bcs, $what"
    }
}

# where WHAT PROGRAM TEXT [VARIABLE=VALUE..]: with these variables, ./bcs --where prints the path of this program, and says the
# text in one line.
where() {
    local what="$1" program="$2" text="$3"
    shift 3
    env "$@" ./bcs --where >output 2>errors || fail "./bcs --where, $what"
    { [ "$(cat output)" = "$room/$program" ] && [ "$(wc -l <errors)" = 1 ] && grep -q "$text" errors; } || {
        cat output errors
        fail "./bcs --where, $what"
    }
}

# ends STATUS TEXT ARGUMENT..: ./bcs ends with that status, and says the text.
ends() {
    local expected="$1" text="$2" status=0
    shift 2
    ./bcs "$@" >output 2>errors || status=$?
    { [ "$status" = "$expected" ] && grep -q "$text" errors; } || {
        cat output errors
        fail "./bcs $* ends with $status"
    }
}

taken=dist/x86_64-linux/bcs own=crates/bcs/out/bcs
same='^bcs: the program in dist/, built from these sources (BCS_OWN_BUILD=1 runs your own build)$'
older='^bcs: the program in dist/, built from older sources; '

# test_planted_build: what looks like a build of these sources doesn't run unless somebody asks for it.
test_planted_build() {
    program $own planted
    tools/dist_sources.sh --built-from >out/proved
    runs "with a planted program" taken
    touch -d '1 hour' $own out/proved
    tools/dist_sources.sh >out/sources
    runs "with a planted program of a later time" taken
    where "with a planted program" $taken "$same"
    runs "with a planted program, and an empty variable" taken BCS_OWN_BUILD=
    rm -r $own out/proved out/sources
}

# test_sources: ./bcs doesn't look at the sources, and --where compares them by content, whatever times they have.
test_sources() {
    script bin/sha256sum 'exit 1'
    runs "where no checksum can be made" taken
    where "where no checksum can be made" $taken "can't be compared"
    rm bin/sha256sum
    where "as taken" $taken "$same"
    sed -i 's/$/ /' crates/bcs_num/src/lib.rt
    runs "with an edited source" taken
    where "with an edited source" $taken "$older"
    touch -d '1 hour' crates/bcs_num/src/lib.rt
    tools/dist_sources.sh >out/sources
    touch -d '2 hours' out/sources
    where "with an edited source, and what an older launcher cached later" $taken "$older"
    rm out/sources
    sed -i 's/ $//' crates/bcs_num/src/lib.rt
    where "with the source as it was" $taken "$same"
    mv crates/bcs_num/src/lib.rt aside
    where "with a source less" $taken "$older"
    mv aside crates/bcs_num/src/lib.rt
    echo >>tools/make_dist.sh
    where "with an edited script that makes dist/" $taken "$older"
    truncate -s -1 tools/make_dist.sh
    touch -d 2001-01-01 aside
    mv aside crates/bcs_num/src/more.rt
    where "with a source more, of an old time" $taken "$older"
    rm crates/bcs_num/src/more.rt
    ln -s lib.rt crates/bcs_num/src/more.rt
    where "with a source more, which is a link" $taken "$older"
    rm crates/bcs_num/src/more.rt
    for name in registries types other/tests/test; do
        mkdir -p bindings/python/bcs_proved/other/tests
        echo >>"bindings/python/bcs_proved/$name.py"
        where "with a changed Python file that dist/ isn't made from: $name.py" $taken "$same"
    done
    echo >>bindings/python/bcs_proved/values.py
    where "with a changed Python file that makes the test vectors" $taken "$older"
    git checkout -q bindings
    git clean -qfd bindings
}

# test_own_build: it runs if somebody asks for it, whatever its sources, and --where compares these.
test_own_build() {
    export BCS_OWN_BUILD=1
    ends 4 'nothing was built here' check
    BCS_OWN_BUILD=yes
    ends 4 'has to be 1, or not set' check
    unset BCS_OWN_BUILD
    program $own own
    runs "with an own build" own BCS_OWN_BUILD=1
    where "with a build of which nothing is known" $own 'nobody knows the sources' BCS_OWN_BUILD=1
    tools/dist_sources.sh --built-from >out/proved
    where "with an own build" $own '^bcs: your own build, for BCS_OWN_BUILD=1, built from these sources$' BCS_OWN_BUILD=1
    echo >>crates.txt
    where "with a build of other sources" $own 'BCS_OWN_BUILD=1, built from older sources' BCS_OWN_BUILD=1
    truncate -s -1 crates.txt
    touch -d '1 hour' $own
    where "with a program that was built later" $own 'nobody knows the sources' BCS_OWN_BUILD=1
    rm $own out/proved
}

# finds_itself FOLDER COMMAND..: in that folder, the command prints the path of the program.
finds_itself() (
    cd "$1"
    shift
    [ "$("$@" --where 2>/dev/null)" = "$room/$taken" ] || fail "$* --where"
)

test_where() {
    mkdir elsewhere
    ln -s ../bcs elsewhere/link
    finds_itself elsewhere ./link
    finds_itself bin sh ../bcs
    finds_itself . sh bcs
    test_path
    test_others
    rm $own
}

# is_lost SCRIPT COMMAND..: in the folder elsewhere, with the script as its input, the command runs nothing, and says what to do.
is_lost() (
    local script="../$1"
    shift
    cd elsewhere
    ! "$@" -s -- --help <"$script" >output 2>errors || fail "$* runs something"
    { [ ! -s output ] && grep -q 'run it by its path' errors; } || fail "$* prints $(cat output errors)"
)

# test_path: without a path, the script finds its own program through PATH, and runs none of the current folder.
test_path() {
    local script with_both="PATH=$room:$room/linked:$PATH"
    mkdir -p elsewhere/dist/x86_64-linux linked
    program elsewhere/$taken hostile
    ln -s ../bcs linked/name
    finds_itself elsewhere env "$with_both" bcs
    finds_itself elsewhere env "$with_both" bash bcs
    finds_itself elsewhere env "$with_both" bash name
    for script in bcs test install; do
        is_lost $script bash
        echo "# another" >elsewhere/bash
        is_lost $script bash
        rm elsewhere/bash
    done
}

# tests_itself FOLDER COMMAND..: in that folder, the command runs the tests beside the script.
tests_itself() (
    cd "$1"
    shift
    "$@" --help 2>&1 | grep -q SHA256SUMS || fail "$* --help"
)

# installs_itself FOLDER COMMAND..: in that folder, the command looks for the library beside the script. (There is none.)
installs_itself() (
    cd "$1"
    shift
    ! "$@" --library --prefix "$room/prefix" 2>"$room/errors" || fail "$* installs something"
    grep -qx "install: there is no library to install: $room/dist/x86_64-linux/libbcs.so" "$room/errors" || {
        cat "$room/errors"
        fail "$*"
    }
)

# is_sent_away COMMAND..: in the folder elsewhere, the command runs nothing, and says what to do.
is_sent_away() (
    cd elsewhere
    ! "$@" --help >output 2>errors || fail "$* runs something"
    { [ ! -s output ] && grep -q 'run it by its path' errors; } || fail "$* prints $(cat output errors)"
)

# test_others: ./bcs-registry, ./test and ./install use their own files, and none of the current folder.
test_others() {
    local command script=bindings/python/bcs_proved/registries.py
    mkdir -p "elsewhere/${script%/*}"
    echo 'print("own")' >$script
    echo 'print("hostile")' >elsewhere/$script
    ln -s "$room/bcs-registry" linked/registry
    for command in ../bcs-registry ../linked/registry "sh ../bcs-registry" "env PATH=$room/linked:$PATH registry"; do
        # shellcheck disable=SC2086 # it is a command with its words
        [ "$(cd elsewhere && $command)" = own ] || fail "$command"
    done
    is_sent_away env "PATH=$room:$PATH" bash bcs-registry
    mkdir elsewhere/tests
    echo 'print("hostile")' >elsewhere/tests/test_command.py
    echo hostile >elsewhere/dist/x86_64-linux/libbcs.so
    mv dist/x86_64-linux/libbcs.so aside
    tests_itself . sh test
    tests_itself elsewhere sh ../test
    installs_itself . sh install
    installs_itself elsewhere sh ../install
    is_sent_away env "PATH=$room:$PATH" bash test
    is_sent_away env "PATH=$room:$PATH" bash install
    mv aside dist/x86_64-linux/libbcs.so
}

# test_build: ./bcs --build, with the script that plays the building.
test_build() {
    local time
    program bin/made built
    for time in once again; do
        ./bcs --build 2>errors || fail "./bcs --build, $time"
        grep -q 'BCS_OWN_BUILD=1 ./bcs runs' errors || fail "./bcs --build doesn't say how its program runs, $time"
    done
    { grep -q 'is proved and built from these sources' errors && [ "$(wc -l <builds)" = 1 ]; } || fail "./bcs --build builds again"
    runs "after --build" taken
    runs "with a program that was built" built BCS_OWN_BUILD=1
    echo >>crates.txt
    { ./bcs --build 2>errors && [ "$(wc -l <builds)" = 2 ]; } || fail "./bcs --build with a changed source"
    truncate -s -1 crates.txt
    mv bin/made aside
    ends 4 'could not be built' --build
    (export PATH="$room/few" && ends 4 'command not found: rt' --build)
    mv aside bin/made
    cp bin/made $own
    git add -f $own
    ends 4 "git tracks what only a build may make" --build
    git rm -q --cached $own
    tools/dist_sources.sh --built-from >out/proved
}

# test_processors: by these features of theirs, in the order in which Linux lists them.
test_processors() {
    local feature
    sed -i "s,/proc/cpuinfo,$room/processor," bcs
    script bin/uname "echo Linux x86_64"
    for feature in "sse4_1 sse4_2 popcnt lahf_lm" "sse4_2 x2apic movbe popcnt tsc_deadline_timer" "popcnt sse4_2" "cx16 sse4_2 popcnt"; do
        printf 'model name\t: one\nflags\t\t: fpu %s\nbogomips\t: 1\n' "$feature" >processor
        runs "on a processor with $feature" taken
    done
    for feature in "ssse3 cx16 sse4_1 lahf_lm" "sse4_1 sse4_2 lahf_lm" "popcnt lahf_lm sse4a" "sse4_2x popcnt" "sse4_2 avx512_vpopcntdq"; do
        printf 'model name\t: one\nflags\t\t: fpu %s\nbogomips\t: 1\n' "$feature" >processor
        ends 4 'x86-64-v2' check
    done
    : >processor
    runs "on a system that doesn't describe its processor" taken
    rm processor
    runs "on a system without the description" taken
    rm bin/uname
}

# test_machines: each kind of machine is one by the name that a `uname` of its own gives it, and arm64 by a loader in this
# folder.
test_machines() {
    local machine
    sed -i "s,/lib/ld-linux-aarch64.so.1,$room/loader," bcs
    for machine in "Darwin x86_64" "Linux riscv64" "Linux aarch64"; do
        script bin/uname "echo $machine"
        ends 4 'node dist/web/bcs.mjs' check
    done
    touch loader
    runs "on arm64" arm
    rm loader bin/uname dist/x86_64-linux/bcs
    ends 4 'no program in dist/' check
}

make_copy
make_history
make_tools
test_planted_build
test_sources
test_own_build
test_build
test_where
test_processors
test_machines
echo "launcher: ./bcs runs the program in dist/, or with BCS_OWN_BUILD=1 what --build built; --where compares the sources"
