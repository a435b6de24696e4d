#!/usr/bin/env python3
"""platforms/windows/tests/rows_of_program.py PROGRAM: asks all rows of tests/rows/bcs.rows of the program.

Those that rows_apart lists must fail, and all others must hold. tests/rows/program.py runs the program for each row.
Several processes ask a part of the rows each.
"""

from __future__ import annotations

import concurrent.futures
import pathlib
import re
import subprocess
import sys
import tempfile

HERE = pathlib.Path(__file__).resolve().parent
ROWS = HERE.parents[2] / "tests/rows"
PARTS = 2
# Fewer rows mean that the table wasn't read.
LEAST = 1100
# Of some thousand starts under wine, one ends with status 1 and prints nothing. We don't know why. So this number of
# rows may be asked twice.
MOST_AGAIN = 3


def fail(what: str) -> None:
    sys.exit(f"rows_of_program: FAILED: {what}")


def lines_of(table: pathlib.Path) -> list[bytes]:
    """The lines that aren't comments."""
    with table.open("rb") as file:
        return [line for line in file if line.strip() and not line.startswith(b"#")]


def is_file(line: bytes) -> bool:
    """Whether the line makes a file that rows need. Each part of the table has all of these lines."""
    return line.startswith(b"file\t")


def row_of(line: bytes) -> bytes:
    """The row without its answer."""
    return line.rstrip(b"\n").partition(b" -> ")[0]


class Asker:
    """Asks tables of the program."""

    def __init__(self, program: str, room: pathlib.Path) -> None:
        self.program, self.room = program, room

    def ask(self, name: str, lines: list[bytes]) -> list[str]:
        """Returns the lines that the test of a table printed. The last one has the counts."""
        table = self.room / name
        table.write_bytes(b"".join(lines))
        command = [str(ROWS / "program.py"), "--jobs", "1", self.program, str(table)]
        told = subprocess.run(command, stdout=subprocess.PIPE, text=True).stdout
        print(told, end="", flush=True)
        return told.splitlines() or [""]

    def ask_part(self, number: int, lines: list[bytes]) -> tuple[int, list[bytes]]:
        """Returns how many rows passed, and the lines of those that failed."""
        told = self.ask(f"rows.{number}", lines)
        passed = re.fullmatch(r"rows: (\d+) passed, \d+ failed", told[-1])
        numbers = [re.match(r"rows: FAILED: line (\d+) of ", line) for line in told]
        return int(passed[1]) if passed else 0, [lines[int(found[1]) - 1] for found in numbers if found]


def ask_rows(asker: Asker, lines: list[bytes]) -> tuple[int, int]:
    """Asks the rows that have to hold. Returns how many there are, and how many of them were asked twice."""
    parts = [[line for at, line in enumerate(lines) if is_file(line) or at % PARTS == part] for part in range(PARTS)]
    with concurrent.futures.ThreadPoolExecutor(PARTS) as executor:
        answers = list(executor.map(asker.ask_part, range(PARTS), parts))
    passed, failed = sum(count for count, _ in answers), [row for _, rows in answers for row in rows]
    there = sum(not is_file(line) for line in lines)
    if passed + len(failed) != there or there < LEAST:
        fail(f"{passed + len(failed)} rows of {there}, and at least {LEAST} are there")
    if len(failed) > MOST_AGAIN:
        fail(f"{len(failed)} rows that have to hold")
    if failed:
        told = asker.ask("again", [line for line in lines if is_file(line) or line in failed])
        if not re.fullmatch(r"rows: [1-9]\d* passed, 0 failed", told[-1]):
            fail("rows that have to hold, asked twice")
    return there, len(failed)


def main() -> None:
    if len(sys.argv) != 2:
        sys.exit(__doc__)
    lines = lines_of(ROWS / "bcs.rows")
    apart = {line.rstrip(b"\n") for line in lines_of(HERE / "rows_apart")}
    unknown = apart - {row_of(line) for line in lines}
    if unknown:
        fail("".join(f"\nno such row: {row.decode()}" for row in sorted(unknown)))
    with tempfile.TemporaryDirectory() as room:
        asker = Asker(sys.argv[1], pathlib.Path(room))
        hold, again = ask_rows(asker, [line for line in lines if is_file(line) or row_of(line) not in apart])
        told = asker.ask("apart", [line for line in lines if is_file(line) or row_of(line) in apart])
    if told[-1] != f"rows: 0 passed, {len(apart)} failed":
        fail("rows_apart lists a row that holds: remove it there")
    print(f"{hold} hold, {again} of them when asked twice, and {len(apart)} can't here")


if __name__ == "__main__":
    main()
