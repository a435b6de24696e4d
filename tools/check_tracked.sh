#!/bin/sh
# Fails if git tracks a file in a folder `out` or `__pycache__`. Git ignores these folders, so a file that somebody committed
# there would run in place of one that is built here, and nothing would show it.
#
# Where git knows nothing of this folder, nobody can tell who made crates/bcs/out/bcs. So it fails if that exists, unless
# BCS_OWN_BUILD=1 says that you built it.
set -eu
unset CDPATH
export LC_ALL=C
cd "$(dirname "$(readlink -f "$0")")/.."

fail() {
    echo "tracked: FAILED: $1"
    exit 1
}

# list_tracked: prints what git tracks here. It fails if this folder isn't the top of a repository.
list_tracked() {
    local names name top
    names=$(git rev-parse --local-env-vars) || return
    for name in $names; do
        unset "$name"
    done
    top=$(git rev-parse --show-toplevel) && [ "$(cd "$top" && pwd -P)" = "$(pwd -P)" ] && git ls-files
}

if tracked=$(list_tracked 2>/dev/null) && [ -n "$tracked" ]; then
    # (git puts quotes around names with special characters)
    found=$(printf '%s\n' "$tracked" | awk 'tolower($0) ~ /(^"?|\/)(out|__pycache__)(\/|"?$)/')
    [ -z "$found" ] || fail "git tracks what only a build may make; remove it with git rm:
$found"
    echo "tracked: none of $(printf '%s\n' "$tracked" | grep -c '') files is in a folder that git ignores"
elif [ -e crates/bcs/out/bcs ] && [ "${BCS_OWN_BUILD-}" != 1 ]; then
    fail "git can't tell who made crates/bcs/out/bcs: delete it, or set BCS_OWN_BUILD=1 if you built it"
else
    echo "tracked: git knows nothing of this folder, and crates/bcs/out has no program of somebody else"
fi
