#!/bin/sh
# Tests the heap of the program, tools/link/program_heap.c: random requests with every byte compared, requests that the system
# refuses, a region that is full, and a process whose addresses are limited, for which there is no region.
set -eu
unset CDPATH
cd "$(dirname "$0")/.."
room=$(mktemp -d)
trap 'rm -rf "$room"' EXIT

# run MODE OPTION..: compiles the test with these options, and runs it.
run() {
    mode=$1
    shift
    gcc -std=gnu11 -O1 -Wall -Wextra -Werror -fno-sanitize-recover=all "$@" tests/program_heap.c -o "$room/heap"
    "$room/heap" "$mode" >"$room/log" 2>&1 || {
        cat "$room/log"
        echo "heap: FAILED: $mode"
        exit 1
    }
    cat "$room/log"
}

run whole -fsanitize=address,undefined
run full -fsanitize=address,undefined '-DREGION=((size_t)2 << 20)'
# (The sanitizer of addresses needs more addresses than the limit leaves.)
run limited -fsanitize=undefined
