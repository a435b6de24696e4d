#!/usr/bin/env python3
"""Asks a program the rows of a table, and compares its status, output and standard error with the answers there.

    tests/rows/program.py [--jobs N] PROGRAM [TABLE]

TABLE is tests/rows/bcs.rows by default. The program is started once for each row. N rows are asked at once, by default
as many as there are processors.
"""

import argparse
import os
import pathlib
import subprocess
import sys
import tempfile
from collections.abc import Iterator
from concurrent.futures import ThreadPoolExecutor
from typing import NamedTuple

from program_rows import BadRow, Question, Row, question_of, rows_of
from words import bytes_of

TABLE = pathlib.Path(__file__).resolve().parent / "bcs.rows"
# a folder can't be read
UNREADABLE = "/"
LONGEST = 200


class Answer(NamedTuple):
    """How the program ended, and what it printed."""

    status: int
    output: bytes
    error: bytes


class Asker:
    """The program, a folder in which it runs, and one with a folder for each row."""

    def __init__(self, program: str, room: pathlib.Path) -> None:
        self.program, self.files, self.room = program, room / "files", room
        self.files.mkdir()

    def make_file(self, row: Row) -> None:
        name, data, *size = row.words
        with (self.files / name).open("xb") as file:
            file.write(bytes_of(data))
            if size:
                file.truncate(int(size[0]))

    def ask(self, question: Question, folder: pathlib.Path) -> Answer:
        """Streams are files, since a program's helper that outlives it, like wine's server, would keep a pipe open."""
        for name, data in question.files.items():
            pathlib.Path(name).write_bytes(data)
        given, output, error = folder / "input", folder / "output", folder / "error"
        if question.stdin is not None:
            given.write_bytes(question.stdin)
        stdin = os.open(UNREADABLE if question.stdin is None else given, os.O_RDONLY)
        try:
            with output.open("wb") as out, error.open("wb") as told:
                command = [os.fsencode(self.program), *question.words]
                env = os.environ | {"LC_ALL": "C"}
                ended = subprocess.run(command, stdin=stdin, stdout=out, stderr=told, cwd=self.files, env=env)
        finally:
            os.close(stdin)
        return Answer(ended.returncode, output.read_bytes(), error.read_bytes())

    def faults_of(self, row: Row) -> list[str]:
        """How the program's answer to a row differs from the expected one."""
        folder = self.room / str(row.line)
        folder.mkdir()
        try:
            question = question_of(row, f"{folder}/")
        except BadRow as fault:
            return [str(fault)]
        return list(differences(question, self.ask(question, folder)))


def differences(question: Question, answer: Answer) -> Iterator[str]:
    if answer.status != question.status:
        yield f"the status is {answer.status}"
    streams = {"output": (answer.output, question.output), "error": (answer.error, question.error)}
    for name, (found, wanted) in streams.items():
        if question.stream == "both":
            is_right = fits(found, wanted)
        else:
            is_right = wanted in found if name == question.stream else not found
        if not is_right:
            what = "the output is" if name == "output" else "standard error has"
            yield f"{what} '{found[:LONGEST].decode(errors='backslashreplace')}'"


def fits(found: bytes, wanted: bytes) -> bool:
    """Whether these are the bytes, or begin with those before a final `..`."""
    return found == wanted or (wanted.endswith(b"..") and found.startswith(wanted[:-2]))


def main() -> int:
    parser = argparse.ArgumentParser(usage=__doc__)
    parser.add_argument("--jobs", type=int, default=os.cpu_count())
    parser.add_argument("program")
    parser.add_argument("table", type=pathlib.Path, nargs="?", default=TABLE)
    args = parser.parse_args()
    program = os.path.realpath(args.program)
    if not os.access(program, os.X_OK):
        sys.exit(f"rows: FAILED: {args.program} isn't a program")
    rows = list(rows_of(args.table.read_text(encoding="utf-8")))
    asked = [row for row in rows if row.kind != "file"]
    passed = 0
    with tempfile.TemporaryDirectory() as room, ThreadPoolExecutor(args.jobs) as lanes:
        asker = Asker(program, pathlib.Path(room))
        for row in rows:
            if row.kind == "file":
                asker.make_file(row)
        for row, faults in zip(asked, lanes.map(asker.faults_of, asked)):
            passed += not faults
            if faults:
                what = ", ".join(faults).replace("\n", ", ")
                print(f"rows: FAILED: line {row.line} of {args.table.name}: {row.text[:LONGEST]}: {what}")
    print(f"rows: {passed} passed, {len(asked) - passed} failed")
    return 0 if passed == len(asked) > 0 else 1


if __name__ == "__main__":
    sys.exit(main())
