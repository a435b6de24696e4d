#!/bin/sh
# Tests the module of Go, without a network, over the library that bindings/c/build.sh installed: in the variable BCS_PREFIX, or
# bindings/c/out. If there is no Go, it installs Debian's package. Prints a line for each part that passes.
set -eu
unset CDPATH
here=$(cd "$(dirname "$0")" && pwd)
root=$(cd "$here/../.." && pwd)
prefix=$(realpath -m "${BCS_PREFIX:-$here/../c/out}")

fail() {
    echo "go: FAILED: $1" >&2
    exit 1
}

[ -e "$prefix/lib/libbcs.a" ] || fail "no library in $prefix: bindings/c/build.sh makes it"
command -v go >/dev/null || "$here/../../tests/debian.py" golang-go || fail "command not found: go; on Debian: apt-get install golang-go"
room=$(mktemp -d)
# The module cache is read-only.
trap 'chmod -R u+w "$room" && rm -rf "$room"' EXIT
export GOPROXY=off GOFLAGS=-mod=mod GOTOOLCHAIN=local CGO_ENABLED=1 GOPATH="$room/path" BCS_EXAMPLES="$root/examples"
export PYTHONDONTWRITEBYTECODE=1

# run NAME COMMAND..: prints the command's output if it fails.
run() {
    local name="$1"
    shift
    "$@" >"$room/log" 2>&1 || {
        cat "$room/log"
        fail "$name"
    }
}

# The module as its package has it, with its tests: the header and the library are beside its sources.
cp -r "$here" "$room/module"
cp "$prefix/include/bcs.h" "$room/module/"
cp "$prefix/lib/libbcs.a" "$room/module/libbcs_linux_amd64.a"
cd "$room/module"

unformatted=$(gofmt -l .)
[ -z "$unformatted" ] || fail "gofmt would change $unformatted"
go vet ./... || fail "go vet"
run "go test -race" env BCS_TEST_RACE=1 go test -race -v .
ran=$(grep -c '^--- PASS' "$room/log") || fail "go test -race ran no test"
echo "go: $ran tests, under the race detector"

# Memory that C has freed is overwritten.
run "go test, closing registries" env MALLOC_PERTURB_=165 go test -count 3 -run Closing .
echo "go: registries are closed while calls run, and freed memory is overwritten"

# Any pointer that Go passes to C is checked, not just those of arguments.
run "go test, with all pointers checked" env GODEBUG=cgocheck=2 go test .
echo "go: the tests, with all pointers checked"

run "go test over the dynamic library" env PKG_CONFIG_PATH="$prefix/lib/pkgconfig" LD_LIBRARY_PATH="$prefix/lib" \
    go test -tags bcs_pkgconfig -run 'Values|Example' .
echo "go: the tests over the dynamic library that pkg-config finds"

# links SYSTEM MACHINE FILE TAGS: fails unless this is the file that says what is linked there.
links() {
    local files
    GOOS=$1 GOARCH=$2 go list -tags "$4" -f '{{join .CgoFiles "\n"}}' . >"$room/files"
    files=$(grep '^link_' "$room/files") || true
    [ "$files" = "link_$3.go" ] || fail "on $1 and $2 with '$4' the build takes $files"
}
links linux amd64 linux_amd64 ""
links linux arm64 linux_arm64 ""
links linux arm64 c bcs_c
links linux riscv64 c ""
links darwin arm64 c ""
links windows amd64 other ""
links darwin arm64 pkgconfig bcs_pkgconfig
links linux amd64 pkgconfig bcs_pkgconfig
sed -n 's,^// #,#,p' link_other.go >"$room/other.c"
! "${CC:-cc}" -fsyntax-only "$room/other.c" 2>"$room/log" || fail "a system without a library is accepted"
grep -q 'has no library for Windows' "$room/log" || fail "a system without a library: $(cat "$room/log")"
echo "go: each system links its library, or is rejected"

go build -o "$room/driver" ./driver || fail "the driver"
run "the rows" python3 "$root/tests/rows" go "$room/driver"
echo "go: $(tail -n 1 "$room/log")"

run "the types of registries" env BCS_LIBRARY="$prefix/lib/libbcs.so" python3 "$here/tests/declared.py" "$room/module"
echo "go: $(tail -n 1 "$room/log")"

# What tools/packages.py makes, as its users have it: with `go get`, and with `go mod vendor`.
python3 "$here/tests/package.py" "$prefix/lib/libbcs.a" "$room" || fail "the package"
cd "$room"
tar -xzf bcs-go-*.tar.gz
mkdir wallet readme
cp "$root/examples/wallet/wallet.go" wallet/main.go
{
    # The SHA3-256 of "APTOS::RawTransaction" comes first in what Aptos signs.
    printf 'b5e97db07fa0bd0e5598aa3643a9bc6f6693bddc1a9fec9e674a461eaa00b193'
    cat "$root/examples/aptos_transfer.hex" "$root/examples/aptos_transfer_normal.json"
    echo "BadHex /sender"
    echo "EndOfInput 100 .payload::EntryFunction.ty_args[0]::Struct.address"
} >wallet/expected
# shellcheck disable=SC2016 # these quotes are in the README
sed -n '/^```go$/,/^```$/p' "$here/README.md" | sed '1d; /^```$/,$d' >readme/main.go
sed -n 's,^.*Print.* // ,,p' readme/main.go >readme/expected
[ "$(wc -l <readme/expected)" = 2 ] || fail "the program of the README doesn't say what it prints"

# prints NAME GO_RUN..: the program in this folder prints what it should.
prints() {
    local name="$1"
    shift
    "$@" >printed || fail "$name"
    diff expected printed || fail "$name prints something else"
}
version=$(sed -n 's/.*BCS_VERSION "\(.*\)"/\1/p' "$prefix/include/bcs.h")
package=file://$(echo "$room"/bcs-go-*/)
export GONOSUMDB=fodrascu.example
for program in wallet readme; do
    cd "$room/$program"
    run "go mod init" go mod init "$program.example/$program"
    run "go get" env GOPROXY="$package" go get "fodrascu.example/bcsproved@v$version"
    prints "the $program" go run . "$root/examples"
    run "go mod vendor" go mod vendor
    prints "the $program, with its modules vendored" go run -mod=vendor . "$root/examples"
done
echo "go: a wallet and the program of the README with the package, by go get and with its modules vendored"
