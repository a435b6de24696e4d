#!/usr/bin/env python3
"""Tests what was built for arm64, in Debian's emulator: `platforms/arm64/test.py [PART]..`, by default all parts.

Prints a line for each thing that passes. The parts are:

    library    what the libraries export and need, the tests of C, and the rows by the functions of bcs.h and by bcs_ask
    program    the rows of tests/rows/bcs.rows, streams, files, large and deep input, and refused memory
    python     the rows in Debian's Python for arm64, and by SQL in its SQLite
    go         the module's tests and the rows
    java       a wallet and the rows in Debian's Java for arm64, with the jar that has the libraries for both processors
    stack      deep values of every kind on threads of all sizes; it takes the longest, and the gate leaves it out

BCS_ARM64 is the folder with bcs, libbcs.a and libbcs.so (default: platforms/arm64/out). The part java also
needs a library for x86-64: in BCS_PREFIX, or bindings/c/out, as bindings/c/build.sh installs it.
"""

import os
import pathlib
import shutil
import signal
import subprocess
import sys
import tempfile
from collections.abc import Callable

HERE = pathlib.Path(__file__).resolve().parent
sys.dont_write_bytecode = True
sys.path[:0] = [str(HERE / "tests"), str(HERE.parent.parent / "tests")]
import debian  # noqa: E402 (the folders have to be known first)
import emulated_languages  # noqa: E402
import emulated_libraries  # noqa: E402
import emulated_program  # noqa: E402
from emulator import COMPILER, Bench, fail  # noqa: E402

PARTS: dict[str, Callable[[Bench], None]] = {
    "library": emulated_libraries.test_library,
    "program": emulated_program.test_program,
    "python": emulated_languages.test_python,
    "go": emulated_languages.test_go,
    "java": emulated_languages.test_java,
    "stack": emulated_libraries.test_stack,
}
# Debian's packages of these commands and files.
NEEDED = {
    COMPILER: "gcc-aarch64-linux-gnu",
    "/usr/aarch64-linux-gnu/include/stdio.h": "libc6-dev-arm64-cross",
    "qemu-aarch64-static": "qemu-user-static",
    "/usr/include/sqlite3ext.h": "libsqlite3-dev",
    "go": "golang-go",
    "javac": "openjdk-17-jdk-headless",
}


def remove(room: pathlib.Path) -> None:
    """Removes a folder, in which the module cache of Go is read-only."""
    subprocess.run(["chmod", "-R", "u+w", room], check=True)
    shutil.rmtree(room)


def main(parts: list[str]) -> None:
    for part in parts:
        if part not in PARTS:
            fail(f"no such part: {part}")
    os.environ["PYTHONDONTWRITEBYTECODE"] = "1"
    built = pathlib.Path(os.environ.get("BCS_ARM64") or HERE / "out").resolve()
    debian.install(NEEDED)
    for name in "bcs", "libbcs.a", "libbcs.so":
        if not (built / name).exists():
            fail(f"there is no {built / name}: platforms/arm64/build.sh makes it")
    # So that the folder is removed then, too.
    signal.signal(signal.SIGTERM, lambda *_: sys.exit(143))
    room = pathlib.Path(tempfile.mkdtemp())
    try:
        for part in parts or PARTS:
            PARTS[part](Bench(built, room))
    finally:
        remove(room)


if __name__ == "__main__":
    main(sys.argv[1:])
