#!/usr/bin/env python3
"""Debian's packages that the tests need: installs those whose programs or files aren't there.

`tests/debian.py PACKAGE..` installs these packages. Steps of the gate run side by side, so they install one after
another: apt-get waits for another one while it unpacks, and not while it reads its lists.
"""

from __future__ import annotations

import contextlib
import fcntl
import os
import pathlib
import shutil
import subprocess
import sys
import tempfile
from collections.abc import Iterator

LOCK = pathlib.Path(tempfile.gettempdir(), "bcs-debian-packages.lock")


def missing(needed: dict[str, str]) -> list[str]:
    """The packages of those programs, or files where a name is a path, that aren't there."""
    return sorted({package for name, package in needed.items() if not is_there(name)})


def is_there(name: str) -> bool:
    return pathlib.Path(name).exists() if name.startswith("/") else shutil.which(name) is not None


def install(needed: dict[str, str]) -> None:
    """Installs what is missing. Ends the script if a package can't be installed."""
    if missing(needed):
        with alone():
            install_packages(missing(needed))


def install_packages(packages: list[str]) -> None:
    """Ends the script with the end of what apt-get printed if a package can't be installed."""
    # At this runlevel the package of a server starts none.
    environment = os.environ | {"DEBIAN_FRONTEND": "noninteractive", "RUNLEVEL": "1"}
    options = ["-o", "DPkg::Lock::Timeout=1200", "-o", "Acquire::Retries=5"]
    words = ["apt-get", *options, "install", "-y", "--no-install-recommends", *packages]
    if packages and run(words, environment).returncode != 0:
        run(["apt-get", "update"], environment)
        tried = run(words, environment)
        if tried.returncode != 0:
            raise SystemExit(f"these packages can't be installed: {' '.join(packages)}\n{tried.stdout[-1000:]}")


@contextlib.contextmanager
def alone() -> Iterator[None]:
    """Waits until no other step installs anything, and keeps others waiting."""
    with LOCK.open("w") as file:
        fcntl.flock(file, fcntl.LOCK_EX)
        yield


def run(words: list[str], environment: dict[str, str]) -> subprocess.CompletedProcess[str]:
    return subprocess.run(words, env=environment, stdout=subprocess.PIPE, stderr=subprocess.STDOUT, text=True)


if __name__ == "__main__":
    with alone():
        install_packages(sys.argv[1:])
