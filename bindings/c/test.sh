#!/bin/sh
# Tests the C library from the prefix where build.sh installed it: the variable BCS_PREFIX, or bindings/c/out. Prints a line for
# each part that passes. The tests on threads of Java need its compiler, javac. Without it they are left out with a message, or
# fail if CI=true.
set -eu
unset CDPATH
here=$(cd "$(dirname "$0")" && pwd)
prefix=$(realpath -m "${BCS_PREFIX:-$here/out}")
tests=$here/tests

fail() {
    echo "c: FAILED: $1" >&2
    exit 1
}

room=$(mktemp -d)
trap 'rm -rf "$room"' EXIT
[ -e "$prefix/lib/libbcs.a" ] || fail "no library in $prefix: bindings/c/build.sh makes it"

compile() {
    gcc -std=gnu11 -O1 -g -Wall -Wextra -Werror -I"$prefix/include" "$@"
}

# run NAME LIBRARY OPTION..: compiles a test with the library, and runs it.
run() {
    local name="$1" library="$2"
    shift 2
    compile "$@" "$tests/$name.c" "$prefix/lib/$library" -pthread -o "$room/$name"
    "$room/$name" || fail "$name $*: status $?"
}

# run_sanitized NAME LIBRARY OPTION..: the same under the sanitizers of addresses and undefined behaviour.
run_sanitized() {
    run "$@" -fsanitize=address,undefined -fno-sanitize-recover=all
}

# A second build makes the same files again, over those of the first.
for time in first second; do
    "$here/build.sh" --prefix "$room/again" --archive "$prefix/lib/libbcs.a" >"$room/log" || fail "build, the $time time"
    [ -e "$room/once" ] || cp -a "$room/again" "$room/once"
    diff -r "$room/once" "$room/again" || fail "build makes another library the $time time"
done
"$here/build.sh" --help >"$room/log"
grep -q 'x86-64-v2' "$room/log" || fail "the help of build doesn't mention processors"

rejects() {
    ! "$here/build.sh" "$@" >"$room/log" 2>&1 || fail "build accepts $*"
    grep -q '^build: ' "$room/log" || fail "build prints no message of its own for $*: $(cat "$room/log")"
}
rejects --nothing
rejects --prefix
rejects --archive "$room/no.a"
rejects --from "$room"
echo "c: build, repeated, and with invalid arguments"

# A program that is linked with the library sees only what the header declares and doesn't define, in the libraries that are tested
# here and in those that the machine's own compiler makes.
sed -nE 's/^(bcs_answer |void |uint32_t |const char \*)(bcs_[a-z_]*)\(.*/\2/p' "$prefix/include/bcs.h" | sort >"$room/declared"
[ "$(tr '\n' ' ' <"$room/declared")" = "bcs_ask bcs_close bcs_handle_nodes_for bcs_open bcs_version " ] \
    || fail "bcs.h declares other functions: $(cat "$room/declared")"
exports_the_header() {
    nm -D --defined-only "$1/lib/libbcs.so" >"$room/nm"
    sed -n 's/.* \(bcs_.*\)@@BCS_0$/\1/p' "$room/nm" | sort | diff "$room/declared" - \
        || fail "the dynamic library in $1 doesn't export exactly the header's calls"
    nm -g --defined-only "$1/lib/libbcs.a" >"$room/nm"
    sed -n 's/.* [A-Z] //p' "$room/nm" | grep -Evx 'bcs_c_[a-z_]*|rattle_(alloc|realloc|dealloc)' | sort \
        | diff "$room/declared" - || fail "the static library in $1 doesn't export exactly the header's calls"
    readelf -d "$1/lib/libbcs.so" | grep -q 'soname: \[libbcs.so.0\]' || fail "the library in $1 has no soname"
    readelf -n "$1/lib/libbcs.so" | grep -q 'x86 ISA needed: x86-64-v2' || fail "the library in $1 isn't marked"
}
exports_the_header "$prefix"
exports_the_header "$room/again"
echo "c: the libraries export $(wc -l <"$room/declared") functions, as the header declares them"

# The header, alone and in any language of C's kind.
for standard in c99 c11 c17; do
    gcc -std=$standard -Wall -Wextra -Wpedantic -Werror -fsyntax-only -x c "$prefix/include/bcs.h" \
        || fail "the header isn't $standard"
done
compile -c "$tests/layout.c" -o "$room/layout.o" || fail "the layout"
gcc -m32 -ffreestanding -std=c11 -Wall -Wextra -Werror -fsyntax-only "$tests/layout.c" || fail "the layout on 32 bits"
gcc -std=c11 -Wall -Wextra -Wpedantic -Werror -fsyntax-only "$here/library.c" || fail "library.c isn't standard C11"
for standard in c++11 c++20; do
    g++ -std=$standard -Wall -Wextra -Wpedantic -Werror -I"$prefix/include" "$tests/as_cpp.cpp" "$prefix/lib/libbcs.a" \
        -o "$room/as_cpp"
    "$room/as_cpp" || fail "C++: status $?"
done
echo "c: the header is C and C++, and its types have the layout of the proved code"

# The README's command, with both libraries.
export PKG_CONFIG_PATH="$prefix/lib/pkgconfig"
sed -n 's/^       \([0-9{r].*\)/\1/p' "$here/example.c" | sed 's, \*/$,,' >"$room/expected"
[ "$(wc -l <"$room/expected")" = 3 ] || fail "example.c doesn't say what it prints"
cp "$here/example.c" "$room"

# example_prints ARGUMENT..: compiles example.c with these arguments of cc, and checks its output.
example_prints() {
    (cd "$room" && cc example.c "$@" -o example && ./example) >"$room/printed" || fail "example.c $*"
    diff "$room/expected" "$room/printed" || fail "example.c $* prints something else"
}
# shellcheck disable=SC2046 # as its users write it
example_prints $(pkg-config --cflags --libs bcs)
readelf -d "$room/example" | grep -q 'NEEDED.*libbcs.so.0' || fail "example.c isn't linked dynamically"
# shellcheck disable=SC2046
example_prints $(pkg-config --cflags bcs) "$prefix/lib/libbcs.a"
readelf -d "$room/example" >"$room/log"
! grep -q 'NEEDED.*libbcs' "$room/log" || fail "example.c isn't linked statically"
echo "c: example.c, linked dynamically and statically"

for name in calls question handles beside; do
    run_sanitized "$name" libbcs.a
done
echo "c: all calls, by name and by bcs_ask, under the sanitizers of addresses and undefined behaviour"

# The layer over the proved code is compiled for a sanitizer only here. It takes precedence over the one in libbcs.a.
for name in calls question; do
    run_sanitized "$name" libbcs.a "$here/library.c" "$here/heap.c"
done

# A later version, whose question has one more member, accepts the questions of this one.
mkdir -p "$room/later/include"
cp "$here/library.c" "$here/proved.h" "$room/later"
sed 's/^    size_t views_length;$/&\n    uint64_t third_number;/' "$here/include/bcs.h" >"$room/later/include/bcs.h"
! cmp -s "$here/include/bcs.h" "$room/later/include/bcs.h" || fail "no later version of bcs.h was made"
run_sanitized question libbcs.a "$room/later/library.c" "$here/heap.c" -DLATER=8 -Wno-missing-field-initializers
echo "c: a library with a longer question accepts this one"
run_sanitized memory libbcs.a "$here/library.c" >"$room/sweep"
awk -F'[:,] ' '{ for (i = 2; i <= NF; i++) if ($i ~ / requests$/) { requests += $i; questions++ } }
    END { print "c: " questions " questions with each of their " requests " requests for memory refused in turn"; exit !requests }' \
    "$room/sweep" || fail "memory.c prints no requests"
run threads libbcs.a
run threads libbcs.a -fsanitize=thread "$here/library.c" "$here/heap.c"
wrapped=-Wl,--wrap=bcs_c_open,--wrap=bcs_c_close,--wrap=bcs_c_ask
run_sanitized sharing libbcs.a "$here/library.c" "$here/heap.c" "$wrapped"
run sharing libbcs.a -fsanitize=thread "$here/library.c" "$here/heap.c" "$wrapped"
echo "c: 40 threads on one handle, also under the sanitizer of threads"

compile "$tests/stack.c" "$prefix/lib/libbcs.a" -pthread -o "$room/stack"
"$room/stack" threads "$here/../../examples" >"$room/log" || fail "stack: status $?"
sed 's/^stack: /c: deep values on a stack of /' "$room/log"
# shellcheck disable=SC3045 # every sh that we run on has this option of ulimit
for limit in 256 8192 unlimited; do
    (ulimit -s "$limit" && "$room/stack" main) >"$room/log" || fail "stack of the main thread, $limit KiB: status $?"
    [ "$limit" = 256 ] || grep -q ' 0 BCS_STACK$' "$room/log" || fail "the main thread has too little stack: $(cat "$room/log")"
done
echo "c: deep values on the main thread's stack, of 256 KiB, 8 MiB, and without a limit"

if compiler=$(command -v javac); then
    java=$(dirname "$(dirname "$(realpath "$compiler")")")
    "$java/bin/javac" -Xlint:all -Werror -d "$room/java" "$tests/java/Deep.java" || fail "Deep.java"
    compile -shared -fPIC -I"$java/include" -I"$java/include/linux" "$tests/java/deep.c" "$prefix/lib/libbcs.a" \
        -o "$room/libdeep.so"
    (cd "$room" && "$java/bin/java" -cp java Deep "$room/libdeep.so" "$here/../../examples") >"$room/log" 2>&1 || {
        cat "$room/log"
        fail "Java"
    }
    sed 's/^java: /c: deep values in Java: /' "$room/log"
elif [ "${CI:-}" = true ]; then
    fail "command not found: javac; on Debian: apt-get install openjdk-17-jdk-headless"
else
    echo "c: NOT TESTED: threads of Java, which need javac; on Debian: apt-get install openjdk-17-jdk-headless"
fi
