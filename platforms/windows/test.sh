#!/bin/sh
# Tests bcs.exe and bcs.dll with Debian's wine: what they import and export, all rows of tests/rows/bcs.rows, files and
# streams, the tests of the library of C with its rows, and threads with small stacks. BCS_WINDOWS is the folder that
# platforms/windows/build.sh made; without it, platforms/windows/out.
set -eu
unset CDPATH
here=$(cd "$(dirname "$0")" && pwd)
root=$(cd "$here/../.." && pwd)
folder=$(realpath -m "${BCS_WINDOWS:-$here/out}")
wine=/usr/lib/wine/wine64

fail() {
    echo "windows: FAILED: $1"
    exit 1
}

set --
[ -e /usr/bin/x86_64-w64-mingw32-gcc ] || set -- "$@" gcc-mingw-w64-x86-64
[ -e "$wine" ] || set -- "$@" wine64
if [ $# != 0 ]; then
    echo "windows: installing $*"
    "$root/tests/debian.py" "$@" || fail "these packages can't be installed: $*"
fi
for name in bcs.exe bcs.dll bcs.lib; do
    [ -e "$folder/$name" ] || fail "there is no $folder/$name: platforms/windows/build.sh makes it"
done

room=$(mktemp -d)
export WINEPREFIX="$room/prefix" WINEDEBUG=-all WINEDLLOVERRIDES="mscoree=;mshtml=" LC_ALL=C.UTF-8
server=$(dirname "$wine")/wineserver64
stop() {
    "$server" -k 2>/dev/null || true
    "$server" -w 2>/dev/null || true
    rm -rf "$room"
}
trap stop EXIT
trap 'exit 1' HUP INT TERM
mkdir "$WINEPREFIX"
"$server" -p
"$wine" wineboot --init >/dev/null 2>&1 || fail "wine doesn't start"

# part NAME COMMAND..: runs a test, and prints its last line, or all lines if it fails.
part() {
    local name="$1"
    shift
    if ! "$@" >"$room/log" 2>&1; then
        cat "$room/log"
        fail "$name"
    fi
    echo "windows: $name: $(tail -n 1 "$room/log")"
}

# part_with_starts NAME COMMAND..: the same for a test that starts the program often. Of some thousand starts under wine, one
# ends with status 1 and prints nothing. We don't know why. So the test is repeated once if it fails. rows_of_program.py asks
# single rows twice.
part_with_starts() {
    local name="$1"
    shift
    if "$@" >"$room/log" 2>&1; then
        echo "windows: $name: $(tail -n 1 "$room/log")"
    else
        echo "windows: $name: once more, after $(tail -n 1 "$room/log")"
        part "$name" "$@"
    fi
}

part "what they import and export" "$here/tests/contents.py" "$folder"

# (in another locale wine changes arguments)
printf '#!/bin/sh\nLC_ALL=C.UTF-8 exec "%s" "%s/bcs.exe" "$@"\n' "$wine" "$folder" >"$room/bcs"
chmod +x "$room/bcs"
part "the rows of the program" "$here/tests/rows_of_program.py" "$room/bcs"
part_with_starts "files and streams" "$here/tests/files.py" "$room/bcs"

# compile NAME SOURCE OPTION..: makes a program that is linked with bcs.dll, in the folder of a copy of bcs.dll.
cp "$folder/bcs.dll" "$room"
compile() {
    local name="$1" source="$2"
    shift 2
    x86_64-w64-mingw32-gcc -std=gnu11 -O2 -Wall -Wextra -Werror -D__USE_MINGW_ANSI_STDIO=1 -I"$here/tests/posix" \
        -I"$root/bindings/c/include" "$source" "$@" "$folder/bcs.lib" -o "$room/$name.exe"
}
interrupted_calls() {
    x86_64-w64-mingw32-gcc -std=gnu11 -O2 -Wall -Wextra -Werror -ffreestanding -nostdinc -isystem "$root/tools/link/include" \
        "$here/tests/interrupted.c" -o "$room/interrupted.exe" && "$wine" "$room/interrupted.exe" \
        && echo "repeated, on files and consoles"
}
part "interrupted calls" interrupted_calls
compile starts "$here/tests/starts.c" -municode
part_with_starts "what programs of Windows can do to it" "$wine" "$room/starts.exe" "$folder/bcs.exe"

# run NAME SOURCE: compiles a test and runs it.
run() {
    compile "$1" "$2" || return 1
    "$wine" "$room/$1.exe" || { echo "$1: status $?" && return 1; }
}
tests_of_c() {
    local name
    x86_64-w64-mingw32-gcc -std=gnu11 -Wall -Wextra -Werror -c "$root/bindings/c/tests/layout.c" -o "$room/layout.o" || return 1
    for name in calls handles beside threads; do
        run "$name" "$root/bindings/c/tests/$name.c" || return 1
    done
    echo "all calls, by name and by bcs_ask, and 40 threads on one handle"
}
part "the tests of C" tests_of_c
run_memory() {
    run memory "$here/tests/memory.c" >"$room/sweep" || return 1
    awk -F'[:,] ' '{ for (i = 2; i <= NF; i++) if ($i ~ / requests$/) { requests += $i; jobs++ } }
        END { print jobs " jobs with each of their " requests " requests for memory refused in turn"; exit requests < 1000 }' "$room/sweep"
}
part "memory" run_memory
# (on Linux 8 MiB of stack are enough)
compile stack "$root/bindings/c/tests/stack.c" "-DENOUGH=(12*MIB)"
part "deep values on small stacks" "$wine" "$room/stack.exe" threads "$root/examples"

# (with the stack of Linux and more, so that no row is answered by BCS_STACK)
compile driver "$root/bindings/c/tests/driver.c" "-Wl,--stack,$((16 << 20))"
part "the rows of the library" python3 "$root/tests/rows" windows "$wine" "$room/driver.exe"
part "the rows of the library, by bcs_ask" \
    python3 "$root/tests/rows" --without changes windows-handles "$wine" "$room/driver.exe" handle
