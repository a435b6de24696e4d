"""Runs a program once, and measures what it costs."""

from __future__ import annotations

import os
import subprocess
import time
from pathlib import Path
from typing import NamedTuple


class Usage(NamedTuple):
    """Processor seconds, seconds, and the most memory in MiB."""

    processor: float
    wall: float
    memory: float


def measure(words: list[str], source: Path | None, kept: Path | None, expected: int = 0) -> Usage | None:
    """The cost of one run over the input SOURCE, which stores its output in KEPT; None if it has another status."""
    with open(source or os.devnull, "rb") as given, open(kept or os.devnull, "wb") as output:
        start = time.monotonic()
        process = subprocess.Popen(words, stdin=given, stdout=output, stderr=subprocess.DEVNULL)
        _, status, used = os.wait4(process.pid, 0)
        wall = time.monotonic() - start
    if os.waitstatus_to_exitcode(status) != expected:
        return None
    return Usage(used.ru_utime + used.ru_stime, wall, used.ru_maxrss / 1024)


def measure_success(words: list[str], source: Path, kept: Path | None = None) -> Usage:
    """The same, for a program that must not fail."""
    used = measure(words, source, kept)
    if used is None:
        raise SystemExit(f"bench: {words} failed")
    return used
