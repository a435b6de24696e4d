"""Tests how much `bcs scan --raw` reads, and in how many calls: reading.py BCS.

It reads 64 KiB at a time, from a file and from the standard input. With --front it leaves what follows the value in the
standard input, for the next program.
"""

from __future__ import annotations

import os
import pathlib
import subprocess
import tempfile
from typing import IO

from harness import arguments, fail, passed

MANY = 1 << 20
FORMAT = '{"SEQ":{"OPTION":"U8"}}'
BLOCK = 65536
# what the system's loader reads before the program starts
START = 16


def length(number: int) -> bytes:
    """A length as ULEB128."""
    low, high = number % 128, number // 128
    return bytes([low | 128]) + length(high) if high else bytes([low])


def calls(program: str, words: list[str], source: pathlib.Path | None, wanted: str) -> int:
    """How many calls of the system read something. The answer has to be the wanted one."""
    given: int | IO[bytes] = source.open("rb") if source else subprocess.DEVNULL
    process = subprocess.Popen([program, *words], stdin=given, stdout=subprocess.PIPE, text=True)
    os.waitid(os.P_PID, process.pid, os.WEXITED | os.WNOWAIT)
    counts = pathlib.Path(f"/proc/{process.pid}/io").read_text(encoding="ascii").splitlines()
    answer, _ = process.communicate()
    if (process.returncode, answer) != (0, wanted):
        fail(f"{words}: status {process.returncode}, {answer!r}")
    return int(dict(line.split(": ") for line in counts)["syscr"])


def is_left(program: str, value: bytes, rest: bytes) -> bool:
    """Whether the bytes after a value are still in the standard input after it was scanned there."""
    reader, writer = os.pipe()
    os.write(writer, value + rest)
    os.close(writer)
    scanned = subprocess.run(
        [program, "scan", "--raw", "--front", "{}", FORMAT], stdin=reader, capture_output=True, text=True
    )
    left = os.read(reader, len(value + rest) + 1)
    os.close(reader)
    return (scanned.returncode, scanned.stdout, left) == (0, f"ok {len(value)}\n", rest)


def main() -> None:
    program = arguments(__doc__, "program").program
    value = length(MANY) + bytes(MANY)
    most = len(value) // BLOCK + 1 + START
    with tempfile.TemporaryDirectory() as room:
        file = pathlib.Path(room) / "options"
        file.write_bytes(value)
        job = ["scan", "--raw", "{}", FORMAT]
        for words, source in [(job, file), ([*job, str(file)], None)]:
            found = calls(program, words, source, f"ok {len(value)}\n")
            if found > most:
                fail(f"{words}: {found} calls read {len(value)} bytes, and at most {most} may")
    if not is_left(program, length(1000) + bytes(1000), bytes(range(100))):
        fail("scan --front doesn't leave the bytes after the value")
    passed(f"{len(value)} options by at most {most} calls; --front leaves what follows")


if __name__ == "__main__":
    main()
