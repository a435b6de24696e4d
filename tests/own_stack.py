#!/usr/bin/env python3
"""Tests that the program has a stack of its own, however small the system's is: tests/own_stack.py FOLDER.

FOLDER has the program `bcs`, linked with its own start. The values open as many containers as a value may, each with as
many levels of a format as a registry may have, so no value needs more stack.
"""

from __future__ import annotations

import json
import pathlib
import resource
import subprocess
import tempfile
from collections.abc import Callable

from harness import fail, program_in_folder

# The least stack that a program gets, in `ulimit -s 64`.
STACK = 64 << 10
CONTAINERS = 500
LEVELS = 32
# Enough for the system's loader, and not for the program's stack.
ADDRESS_SPACE = 12 << 20
FORMATS: dict[str, Callable[[object], object]] = {
    "options": lambda inner: {"OPTION": inner},
    "lists": lambda inner: {"SEQ": inner},
    "keys that are maps": lambda inner: {"MAP": {"KEY": inner, "VALUE": "UNIT"}},
    "values of maps": lambda inner: {"MAP": {"KEY": "UNIT", "VALUE": inner}},
}
JOBS = {
    "decode": (["decode", "--raw"], 2, "refused: TooNested\n"),
    "scan": (["scan", "--raw"], 0, f"ok {LEVELS * (CONTAINERS - 1) + 1}\n"),
    "a refusal's place": (
        ["scan", "--raw", "--depth", str(CONTAINERS - 1)],
        2,
        f"refused: TooDeep at {LEVELS * (CONTAINERS - 1)}\n",
    ),
}


def run(words: list[str | pathlib.Path], limit: int, most: int) -> tuple[int, str, str]:
    """Runs the program with a limit of the system. Returns its status and what it printed."""
    ended = subprocess.run(
        words,
        stdin=subprocess.DEVNULL,
        capture_output=True,
        text=True,
        preexec_fn=lambda: resource.setrlimit(limit, (most, most)),
    )
    return ended.returncode, ended.stdout, ended.stderr


def check_deep_values(program: pathlib.Path, room: pathlib.Path) -> int:
    """Returns the number of runs."""
    (room / "bytes").write_bytes(b"\x01" * (LEVELS * (CONTAINERS - 1)) + b"\x00")
    runs = 0
    for what, wrapped in FORMATS.items():
        inner: object = {"TYPENAME": "Deep"}
        for _ in range(LEVELS):
            inner = wrapped(inner)
        (room / "registry").write_text(json.dumps({"Deep": {"NEWTYPESTRUCT": inner}}), encoding="ascii")
        for job, (words, status, answer) in JOBS.items():
            found = run([program, *words, room / "registry", "Deep", room / "bytes"], resource.RLIMIT_STACK, STACK)
            if found[:2] != (status, answer):
                fail(f"{job} of {what}: {found[0]}, {found[1][:200]}{found[2][:200]}")
            runs += 1
    return runs


def check_without_memory(program: pathlib.Path) -> None:
    """The stack can't be reserved."""
    found = run([program, "--version"], resource.RLIMIT_AS, ADDRESS_SPACE)
    if found != (4, "", "fault: memory\n"):
        fail(f"without room for the stack: {found}")


def main() -> None:
    program = program_in_folder(__doc__)
    with tempfile.TemporaryDirectory() as room:
        runs = check_deep_values(program, pathlib.Path(room))
    check_without_memory(program)
    print(f"own stack: {runs} runs over the deepest values, with {STACK >> 10} KiB of the system's stack")


if __name__ == "__main__":
    main()
