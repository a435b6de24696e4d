#!/bin/sh
# Tests the crate, without a network: its lints, its tests with and without serde_json, its documentation, its programs,
# and the rows of crates/test_codec. BCS_LIB names the folder with libbcs.a, and BCS_PREFIX, if it is set, the prefix
# under which the library is installed.
set -eu
unset CDPATH
cd "$(dirname "$0")"

fail() {
    echo "bindings/rust/test.sh: FAILED: $1" >&2
    exit 1
}

if [ ! -f "${BCS_LIB:-}/libbcs.a" ]; then
    echo "bindings/rust/test.sh: set BCS_LIB to the folder with libbcs.a, which bindings/c/build.sh installs" >&2
    exit 3
fi
BCS_LIB=$(realpath "$BCS_LIB")
export BCS_LIB CARGO_NET_OFFLINE=true

ls -d /usr/share/cargo/registry/serde_json-* >/dev/null 2>&1 || ../../tests/debian.py librust-serde-json-dev
room=$(mktemp -d)
trap 'rm -rf "$room"' EXIT

step() {
    echo "bindings/rust: $*" >&2
    "$@"
}

# has TOOL: whether cargo has this command. In CI it must have it.
has() {
    cargo "$1" --version >/dev/null 2>&1 && return
    [ "${CI:-}" != true ] || fail "command not found: cargo $1"
    return 1
}

test_crate() {
    if has fmt; then
        step cargo fmt --check
    fi
    if has clippy; then
        step cargo clippy --quiet --all-targets --all-features -- --deny warnings
    fi
    step cargo test --quiet
    # (with MALLOC_PERTURB_, freed memory is overwritten)
    step env MALLOC_PERTURB_=165 cargo test --quiet --all-features
    step env RUSTDOCFLAGS='--deny warnings' cargo doc --quiet --no-deps --all-features
}

# The example prints the transfer's bytes, an empty line, and its pieces, as the repository's examples have them.
test_transfer() {
    local examples=../../examples/aptos_transfer
    step cargo run --quiet --example transfer >"$room/transfer"
    {
        cat "$examples.hex"
        echo
        cat "$examples.explained"
    } >"$room/expected"
    diff "$room/expected" "$room/transfer"
}

ask_rows() {
    step cargo build --quiet --release --all-features --example rows
    step python3 ../../tests/rows rust "${CARGO_TARGET_DIR:-target}/release/examples/rows"
}

# pkg-config finds an installed library. If there is none, cargo's message says what to do.
test_finding() {
    if [ -n "${BCS_PREFIX:-}" ]; then
        step env -u BCS_LIB PKG_CONFIG_PATH="$BCS_PREFIX/lib/pkgconfig" cargo test --quiet --test values
    fi
    ! env -u BCS_LIB PKG_CONFIG=false cargo build --quiet >"$room/log" 2>&1 || fail "the crate was built without a library"
    step grep --quiet 'set BCS_LIB to the folder with libbcs.a' "$room/log"
}

# A crate that depends on this one without its features needs no other crate, so it builds without any registry.
test_alone() {
    mkdir -p "$room/alone/src"
    cat >"$room/alone/Cargo.toml" <<END
[package]
name = "alone"
version = "0.1.0"
edition = "2024"
[dependencies]
bcs-proved = { path = "$PWD" }
END
    cat >"$room/alone/src/main.rs" <<'END'
fn main() {
    bcs_proved::Registry::read("{}").unwrap();
}
END
    (cd "$room/alone" && step env CARGO_HOME="$room/home" CARGO_TARGET_DIR="$room/target" cargo run --quiet --offline)
}

test_crate
test_alone
test_transfer
ask_rows
test_finding
echo "bindings/rust: passed"
