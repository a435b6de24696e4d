#!/usr/bin/env python3
"""tests/user_commands.py PROGRAM: runs what somebody without the toolchain runs.

That is ./test with the program and the libraries in dist/, and with PROGRAM; ./test --self-test, in which ./test shows
that it finds wrong answers; the manual, the completions and ./install; and the files that bcs-registry writes.

The files in dist/ are tested with the rows of the commit that they were built in, since today's rows may need what they
can't do yet.
"""

from __future__ import annotations

import pathlib
import re
import shutil
import tempfile

import debian
from harness import ROOT, Failed, arguments, end_with, log_of, run

# for the tests and examples, for reading the manual, for the shells that have completions, and for ./install
NEEDED = {
    "man": "man-db",
    "mandoc": "mandoc",
    "zsh": "zsh",
    "fish": "fish",
    "busybox": "busybox-static",
    "cc": "gcc",
    "node": "nodejs",
    "openssl": "openssl",
    "xxd": "xxd",
    # with which bcs-registry reads YAML
    "/usr/lib/python3/dist-packages/yaml": "python3-yaml",
}


def git(*words: str) -> None:
    """Runs git without the variables that lead it to another repository."""
    run("git", *words, variables=dict.fromkeys(run("git", "rev-parse", "--local-env-vars").split()))


def tree_of_dist(room: pathlib.Path) -> pathlib.Path:
    """The tree that the files in dist/ were built from: this one, or that of an older commit."""
    compared = log_of("tools/compare_dist.sh")
    older = re.search(r"^dist: OLDER .* built it in (\w+)$", compared, flags=re.M)
    if not older:
        return ROOT
    tree = room / "then"
    git("clone", "--quiet", "--shared", "--no-checkout", ".", str(tree))
    git("-C", str(tree), "checkout", "--quiet", "--detach", older[1])
    # It may have been signed in a later commit, but not as a release.
    for name in ["RELEASE", "RELEASE.sig"]:
        (tree / "dist" / name).unlink(missing_ok=True)
    for name in ["SIGNERS", "SHA256SUMS.sig"]:
        (tree / "dist" / name).unlink(missing_ok=True)
        if (ROOT / "dist" / name).exists():
            shutil.copy(ROOT / "dist" / name, tree / "dist")
    return tree


def test(tree: pathlib.Path, *words: str) -> list[str]:
    """Runs ./test of a tree, and prints its lines, the last one with a name."""
    *lines, last = log_of(tree / "test", *words).splitlines()
    print(*lines, f"test: in all {last}", sep="\n")
    return lines


def main() -> None:
    program = str(pathlib.Path(arguments(__doc__, "program").program).resolve())
    debian.install(NEEDED)
    with tempfile.TemporaryDirectory() as room:
        lines = test(tree_of_dist(pathlib.Path(room)), "--program", str(ROOT / "dist/x86_64-linux/bcs"))
    # With another program than that of dist/, the examples of Python are skipped, so they have to run here.
    if skipped := [line for line in lines if "dist/ has another program" in line]:
        raise Failed("\n".join(skipped))
    test(ROOT, "--quick", "--program", program)
    print(log_of("./test", "--self-test", "--program", program), end="")
    print(log_of("tests/packaging.py", "--all", program), end="")
    print(log_of("tests/registry_files.py", program), end="")


if __name__ == "__main__":
    end_with(main)
