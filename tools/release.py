#!/usr/bin/env python3
"""Checks what users run of this repository, and makes the list of a release: tools/release.py --check | --print.

--check: no file that git tracks is setuid or setgid, has capabilities, or has a name elsewhere (a hard link). Others
can write neither to it nor to its folders, which aren't links. git tracks each file in bindings/python, since
PYTHONPATH puts these before Python's own modules. If there is dist/RELEASE, it lists the files as they are.

--print: dist/RELEASE. Each file has two lines: its mode as git writes it, in a comment, and its SHA-256 for sha256sum.

Without git, the files are all that are here, except in folders that builds make.
"""

from __future__ import annotations

import collections
import errno
import hashlib
import os
import pathlib
import re
import stat
import subprocess
import sys
from collections.abc import Iterator
from typing import NoReturn

ROOT = pathlib.Path(os.path.realpath(__file__)).parent.parent
RELEASE = "dist/RELEASE"
# A release doesn't list itself, nor who signed it.
NOT_LISTED = {RELEASE, f"{RELEASE}.sig", "dist/SIGNERS"}
# A maintainer writes it before the list, and commits it with it.
WRITTEN_BEFORE = "dist/SHA256SUMS.sig"
MADE_BY_BUILDS = {".git", "out", "__pycache__", ".mypy_cache"}
MODULES = "bindings/python"


def git(*words: str) -> str:
    """What git prints about this folder and no other one, or nothing if it can't."""
    try:
        local = subprocess.run(["git", "rev-parse", "--local-env-vars"], capture_output=True, text=True).stdout.split()
        variables = {name: value for name, value in os.environ.items() if name not in local}
        ran = subprocess.run(["git", *words], cwd=ROOT, env=variables, capture_output=True)
    except FileNotFoundError:
        return ""
    return os.fsdecode(ran.stdout) if ran.returncode == 0 else ""


def walk(folder: pathlib.Path) -> Iterator[str]:
    """The names of all files and links, except in folders that builds make."""
    for entry in os.scandir(folder):
        if entry.is_dir(follow_symlinks=False):
            if entry.name not in MADE_BY_BUILDS:
                yield from walk(pathlib.Path(entry.path))
        else:
            yield os.path.relpath(entry.path, ROOT)


def tracked() -> set[str]:
    """The names that git tracks, if this folder is the top of a repository."""
    top = git("rev-parse", "--show-toplevel").rstrip("\n")
    if not top or os.path.realpath(top) != str(ROOT):
        return set()
    return set(git("ls-files", "-z").split("\0")) - {""}


def here(known: set[str]) -> list[str]:
    names = known | {WRITTEN_BEFORE} if known else set(walk(ROOT))
    return sorted(name for name in names if os.path.lexists(ROOT / name))


# ---- The list of a release.


def listed(names: list[str]) -> list[str]:
    return [name for name in names if name not in NOT_LISTED]


def described(name: str) -> tuple[str, str]:
    """The mode and the SHA-256 of a file. Of a link or a folder in place of a file, the mode says enough."""
    path = ROOT / name
    mode = path.lstat().st_mode
    if not stat.S_ISREG(mode):
        return f"{stat.S_IFMT(mode):o}", ""
    return "100755" if mode & stat.S_IXUSR else "100644", hashlib.sha256(path.read_bytes()).hexdigest()


def print_release(names: list[str]) -> None:
    for name in names:
        mode, checksum = described(name)
        if not checksum or not re.fullmatch(r"[!-~]+", name) or "\\" in name:
            sys.exit(f"release: FAILED: can't be listed: {printable(name)}")
        print(f"#{mode}  {name}\n{checksum}  {name}")


def changed_since_release(names: list[str]) -> list[str]:
    """The names of files that were changed, added or removed."""
    then = collections.defaultdict[str, list[str]](list)
    for line in (ROOT / RELEASE).read_text(encoding="utf-8", errors="replace").splitlines():
        what, _, name = line.partition("  ")
        then[name].append(what)
    now = {name: [f"#{mode}", checksum] for name in names for mode, checksum in [described(name)]}
    return sorted(name for name in {*then, *now} if then.get(name) != now.get(name))


# ---- Rights.


def has_capabilities(path: pathlib.Path) -> bool:
    # Only Linux has them, and only there Python has the function.
    if sys.platform != "linux":
        return False
    try:
        return "security.capability" in os.listxattr(path, follow_symlinks=False)
    except OSError as error:
        if error.errno == errno.ENOTSUP:
            return False
        raise


def wrong_rights(names: list[str]) -> Iterator[str]:
    """A line for each right that makes somebody else's changes run, or runs with rights of somebody else."""
    folders = {str(folder) for name in names for folder in pathlib.PurePath(name).parents}
    states = {name: (ROOT / name).lstat() for name in [*sorted(folders), *names]}
    links = collections.Counter((state.st_dev, state.st_ino) for name, state in states.items() if name not in folders)
    for name, state in states.items():
        if stat.S_ISLNK(state.st_mode):
            if name in folders:
                yield f"{name} is a link in place of a folder"
            continue
        if state.st_mode & stat.S_IWOTH:
            yield f"{name} can be written by others"
        if not stat.S_ISREG(state.st_mode):
            continue
        if state.st_mode & (stat.S_ISUID | stat.S_ISGID):
            yield f"{name} is setuid or setgid"
        if has_capabilities(ROOT / name):
            yield f"{name} has capabilities"
        if state.st_nlink > links[state.st_dev, state.st_ino]:
            yield f"{name} has a name elsewhere, through which it can be changed"


def printable(text: str) -> str:
    return re.sub(r"[^ -~]", "?", text)


def fail(what: str, found: list[str]) -> NoReturn:
    print(*(f"    {printable(line)}" for line in found), f"dist: FAILED: {what}", sep="\n")
    sys.exit(1)


def check() -> None:
    known = tracked()
    names = here(known)
    if found := list(wrong_rights(names)):
        fail("the rights of these files have to be changed", found)
    if known and (found := sorted(set(walk(ROOT / MODULES)) - known)):
        fail(f"git doesn't track these files, which Python can run with PYTHONPATH={MODULES}: delete them", found)
    if (ROOT / RELEASE).exists() and (found := changed_since_release(listed(names))):
        fail(f"changed since the release: {len(found)} files (if you changed them: git rm {RELEASE}*)", found)
    modules = "git tracks all modules in" if known else "git knows nothing of"
    print(f"dist: the rights of {len(names)} files are as they have to be, and {modules} {MODULES}")


def main() -> None:
    if sys.argv[1:] == ["--check"]:
        check()
    elif sys.argv[1:] == ["--print"]:
        print_release(listed(here(tracked())))
    else:
        sys.exit(__doc__)


if __name__ == "__main__":
    main()
