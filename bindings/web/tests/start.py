#!/usr/bin/env python3
"""bindings/web/tests/start.py FOLDER: measures the processor time that the program in the folder takes for `--version`.

That is the least of ten runs. Alone on a machine of 2.5 GHz it is some 100 ms, and 40 ms for an empty program; on a
busy one it has been 400 ms. It may be 500 ms, or eight times what Node takes for an empty program.
"""

from __future__ import annotations

import pathlib
import resource
import subprocess
import sys

RUNS = 10
MOST, MOST_TIMES = 0.5, 8


def seconds(command: list[str]) -> float:
    """The processor seconds of one run."""
    before = resource.getrusage(resource.RUSAGE_CHILDREN)
    subprocess.run(command, stdout=subprocess.DEVNULL, check=True)
    after = resource.getrusage(resource.RUSAGE_CHILDREN)
    return after.ru_utime + after.ru_stime - before.ru_utime - before.ru_stime


def main() -> None:
    if len(sys.argv) != 2:
        sys.exit(__doc__)
    version = ["node", str(pathlib.Path(sys.argv[1]) / "bcs.mjs"), "--version"]
    told = subprocess.run(version, stdout=subprocess.PIPE, check=True).stdout
    if not told.startswith(b"bcs "):
        sys.exit(f"start: FAILED: --version prints {told!r}")
    empty = min(seconds(["node", "-e", "0"]) for _ in range(RUNS))
    program = min(seconds(version) for _ in range(RUNS))
    print(f"start: {program:.3f} processor seconds, and {empty:.3f} of an empty program")
    if program > max(MOST, MOST_TIMES * empty):
        sys.exit("start: FAILED: the start takes longer than that")


if __name__ == "__main__":
    main()
