#!/bin/sh
# Tests the jar of Java over the library that bindings/c/build.sh installed: in the variable BCS_PREFIX, or bindings/c/out. If
# there is no JDK, it installs Debian's package of Java 17. Prints a line for each part that passes. ROUNDS=200 tries 50,000 random
# values.
set -eu
unset CDPATH
here=$(cd "$(dirname "$0")" && pwd)
root=$(cd "$here/../.." && pwd)
prefix=$(realpath -m "${BCS_PREFIX:-$here/../c/out}")

fail() {
    echo "java: FAILED: $1" >&2
    exit 1
}

command -v javac >/dev/null || "$here/../../tests/debian.py" openjdk-17-jdk-headless \
    || fail "command not found: javac; on Debian: apt-get install openjdk-17-jdk-headless"
JAVA_HOME=$(dirname "$(dirname "$(realpath "$(command -v javac)")")")
export JAVA_HOME PYTHONDONTWRITEBYTECODE=1
room=$(mktemp -d)
trap 'rm -rf "$room"' EXIT

# run NAME COMMAND..: prints the command's output if it fails.
run() {
    local name="$1"
    shift
    "$@" >"$room/log" 2>&1 || {
        cat "$room/log"
        fail "$name"
    }
}

# fails NAME MESSAGE COMMAND..: the command has to fail and to print the message.
fails() {
    local name="$1" message="$2"
    shift 2
    ! "$@" >"$room/log" 2>&1 || fail "$name: no failure"
    grep -q -e "$message" "$room/log" || fail "$name: $(cat "$room/log")"
}

for time in first second; do
    run "build, the $time time" "$here/build.sh" --prefix "$prefix" --out "$room/$time"
done
cmp "$room/first/bcsproved.jar" "$room/second/bcsproved.jar" || fail "build makes another jar the second time"
fails "build without a library" '^build: no library' "$here/build.sh" --prefix "$room"
nm -D --defined-only "$room/first/libbcs_jni.so" >"$room/symbols"
grep -q ' Java_bcsproved_Native_' "$room/symbols" || fail "the native library exports nothing"
names=$(sed 's/.* [A-Z] //' "$room/symbols" | grep -v '^Java_bcsproved_Native_') || true
[ -z "$names" ] || fail "the native library exports $names"
"$JAVA_HOME/bin/javac" -Xlint:all -Werror --release 17 -cp "$room/first/bcsproved.jar" -d "$room/tests" "$here"/tests/*.java \
    "$root/examples/wallet/Wallet.java"

# "$@" is now the command for Java, which unpacks the library from the jar and prints invalid calls of JNI.
mkdir "$room/temporary"
set -- "$JAVA_HOME/bin/java" -XX:+UseSerialGC -Xcheck:jni -Djava.io.tmpdir="$room/temporary" \
    -cp "$room/first/bcsproved.jar:$room/tests"

# passes NAME COMMAND..: the command prints one line, so JNI finds no error.
passes() {
    run "$@"
    [ "$(wc -l <"$room/log")" = 1 ] || {
        cat "$room/log"
        fail "$1: JNI finds an error"
    }
    echo "java: $(cat "$room/log")"
}
passes "the tests" env MALLOC_PERTURB_=165 "$@" -Xmx64m Tests "$root/examples"
passes "values as types" "$@" ValueTypes "$root/examples"
passes "values without end" env MALLOC_PERTURB_=165 "$@" -Xmx400m ValueCosts
passes "values on threads" env MALLOC_PERTURB_=165 "$@" Threads
registries=$((${ROUNDS:-40} * 25 / 2))
"$root/tests/rows/random_values.py" "$registries" >"$room/values" || fail "random values"
passes "random values" "$@" RandomValues "$room/values" $((20 * registries))
run "the test of memory" "$@" -Xmx16m Tests "$root/examples" memory
echo "java: more output than Java has memory for"
"$@" Wallet "$root/examples" >"$room/wallet" || fail "the wallet"
{
    cat "$root/examples/aptos_transfer.hex"
    echo 64
    cat "$root/examples/aptos_transfer_normal.json"
    echo "EndOfInput 100 .payload::EntryFunction.ty_args[0]::Struct.address"
} >"$room/expected"
diff "$room/expected" "$room/wallet" || fail "the wallet prints something else"
echo "java: a wallet with the jar"
[ -z "$(ls -A "$room/temporary")" ] || fail "unpacking leaves $(ls "$room/temporary")"

# wallet OPTION..: without its library the class fails with a message.
wallet() {
    "$JAVA_HOME/bin/java" -cp "$room/first/bcsproved.jar:$room/tests" "$@" Wallet "$root/examples"
}
fails "a library that doesn't exist" UnsatisfiedLinkError wallet -Dbcsproved.library=/nowhere.so
fails "a machine without a library" 'there is no library for Linux-none' wallet -Dos.arch=none
run "a library that is named" wallet -Dbcsproved.library="$room/first/libbcs_jni.so"
echo "java: the library by its name, and none"

run "the rows" python3 "$root/tests/rows" java "$@" Driver
echo "java: $(tail -n 1 "$room/log")"

run "the types of registries" env BCS_LIBRARY="$prefix/lib/libbcs.so" python3 "$here/tests/declared.py" "$room/first/bcsproved.jar" "$room"
echo "java: $(tail -n 1 "$room/log")"
