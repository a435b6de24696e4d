#!/usr/bin/env python3
"""Runs `bcs explain` at each row of explain.rows and explain_views.rows, and at the bytes of the examples, whose tables
are stored beside them.

    tests/explain.py [FOLDER [VALUES]]

FOLDER has the program `bcs`; without it, the proved one is tested, as `rt ci` or `rt run` left it. The expected answers
were made from the rules, and never by the program. tests/paths.py asks about VALUES random values, by default 1,000: of
the 290 pairs of a container and what is in it, these have 288. tests/differences.py asks about a tenth as many pairs of
values, with some 20 runs of the program for each. One step of the gate asks about 10,000: before you submit a change of
`explain` or `diff`, do so, too.
"""

import os
import pathlib
import re
import subprocess
import sys
from collections.abc import Iterator
from typing import NamedTuple

from harness import PROGRAMS, ROOT, arguments, end_with, program_in, report

sys.path.insert(0, str(ROOT / "tests/rows"))
from explain_rows import (  # noqa: E402 (the folder has to be known first)
    EXAMPLES,
    ExplainRow,
    joined,
    rows_of_table,
    rows_of_views,
)

BY_HAND = "tests/rows/bytes.rows"
ROW_OF_BYTES = re.compile(r"\| (\d+) \|([^|]*)\|.*")


class HandWritten(NamedTuple):
    """Bytes in a row of a table, as digits: the file that has them, and where."""

    file: str
    place: int
    digits: str


def explain(words: list[str], stdin: str, stderr: int | None) -> subprocess.CompletedProcess[str]:
    command = [b"bcs", b"explain", *(word.encode() for word in words)]
    return subprocess.run(command, input=stdin, stdout=subprocess.PIPE, stderr=stderr, encoding="utf-8")


def faults_of_row(row: ExplainRow) -> Iterator[str]:
    ended = explain([*row.options, row.registry.decode(), row.format], f"{row.digits}\n", subprocess.PIPE)
    is_refused = "refused:" in row.wanted or '"refused":' in row.wanted
    if ended.returncode != (2 if is_refused else 0) or joined(ended.stdout) != row.wanted:
        yield f"{row.name}: status {ended.returncode}, {ended.stdout}"
    if (row.error or not is_refused) and ended.stderr.removesuffix("\n") != row.error:
        yield f"{row.name}: standard error has {ended.stderr}"


def faults_of_example(name: str, registry: str, format: str) -> Iterator[str]:
    ended = explain([f"examples/{registry}.json", format, f"examples/{name}.hex"], "", subprocess.STDOUT)
    if ended.stdout != pathlib.Path(f"examples/{name}.explained").read_text(encoding="utf-8"):
        yield f"the table of {name}: {ended.stdout[:300]}"


def hand_written() -> Iterator[HandWritten]:
    """The rows of the tables that were written by hand."""
    name = ""
    for line in pathlib.Path(BY_HAND).read_text(encoding="utf-8").split("\n"):
        if line.startswith("## "):
            name = re.sub("[`,]", "", line.split()[1])
        elif row := ROW_OF_BYTES.fullmatch(line):
            yield HandWritten(name, int(row[1]), digits_of(row[2].replace("`", "").split()))


def digits_of(words: list[str]) -> str:
    """Digits in which `00 × 3` stands for 000000."""
    digits = ""
    for number, word in enumerate(words):
        if number and words[number - 1] == "×":
            digits += (int(word) - 1) * words[number - 2]
        elif word != "×":
            digits += word
    return digits


def faults_by_hand(row: HandWritten) -> Iterator[str]:
    """The value's file has these bytes, and a line of its table begins there."""
    path = pathlib.Path("examples") / row.file
    digits = path.read_text(encoding="utf-8").replace("\n", "")
    table = path.with_suffix(".explained").read_text(encoding="utf-8")
    if not digits.startswith(row.digits, 2 * row.place) or not re.search(rf"^ *{row.place}  ", table, re.MULTILINE):
        yield f"the bytes by hand at {row.place} of {row.file}"


def faults_of_script(script: str, values: int) -> Iterator[str]:
    """What a script finds wrong that asks about random values."""
    ended = subprocess.run([script, str(values)], stdout=subprocess.PIPE, stderr=subprocess.STDOUT, text=True)
    if ended.returncode != 0:
        yield ended.stdout


def main() -> int:
    args = arguments(__doc__, folder=PROGRAMS, values=1000)
    program = program_in(args.folder)
    os.chdir(ROOT)
    os.environ["PATH"] = f"{program.parent}:{os.environ['PATH']}"
    rows, by_hand = [*rows_of_table(ROOT), *rows_of_views(ROOT)], list(hand_written())
    tests = [
        *map(faults_of_row, rows),
        *(faults_of_example(name, *words) for name, words in EXAMPLES.items()),
        *map(faults_by_hand, by_hand),
        faults_of_script("tests/paths.py", args.values),
        faults_of_script("tests/differences.py", args.values // 10),
    ]
    faults = [fault for test in tests for fault in test]
    faults += [f"no {what} is found" for what, found in [("row", rows), ("example of BYTES.md", by_hand)] if not found]
    return report(len(tests), faults)


if __name__ == "__main__":
    end_with(main)
