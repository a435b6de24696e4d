#!/usr/bin/env python3
"""Feeds `bcs --lines` like the engines of docs/PROGRAM.md do.

    tests/engines.py [FOLDER]

FOLDER has the program `bcs`; without it, the proved one is tested, as `rt ci` or `rt run` left it. Debian has none of
ClickHouse, DuckDB and Spark, so stand-ins follow their documented protocols. GNU parallel is run itself.
"""

from __future__ import annotations

import json
import os
import pathlib
import resource
import select
import subprocess
import tempfile
import threading
from collections.abc import Iterable
from typing import Any

import debian
from harness import ROOT, fail, passed, program_in_folder

REFUSALS = ["--refusals", "json"]
NO_REFUSALS: list[str] = []
DECODE = ["decode", "--lines", *REFUSALS, "examples/aptos_registry.json", "RawTransaction"]
# More than a pipe holds.
ROWS = 2000
BLOCKS = 3
# At which a file ends within an answer.
FILE_SIZE = 1000
# How long a program may take for a line.
SECONDS = 120
# Commands with their arguments, and lines of which the second is refused.
LINE_BY_LINE: dict[str, tuple[list[str], list[str]]] = {
    "encode": (["{}", '"U8"'], ["7", "x", "8"]),
    "normalise": (["{}", '"U8"'], ['"7"', "x", "8"]),
    "decode": (["{}", '"U8"'], ["07", "x", "08"]),
    "explain": (["--json", "{}", '"U8"'], ["07", "x", "08"]),
    "part": (["{}", '{"SEQ":"U8"}', "0"], ["0107", "01", "00"]),
    "scan": (["{}", '"U8"'], ["07", "0707", "08"]),
}


def example(name: str) -> str:
    return (ROOT / "examples" / name).read_text(encoding="utf-8").rstrip("\n")


def block_of_rows() -> list[str]:
    """Digits, of which every third line is refused."""
    good, damaged = example("aptos_transfer.hex"), example("aptos_transfer_damaged.hex")
    return [good if number % 3 else damaged for number in range(ROWS)]


def expect_answers(answers: list[str], engine: str) -> None:
    """Each answer is a JSON value, and the refused ones say why and where."""
    if len(answers) != ROWS:
        fail(f"{engine}: {len(answers)} answers to {ROWS} rows")
    value = json.loads(example("aptos_transfer_normal.json"))
    refusal = {
        "refused": "LongForm",
        "place": 73,
        "at": ".payload::EntryFunction.module.name",
        "message": "expected the length of STR, found 8400, which isn't the shortest form of the number",
    }
    for number, answer in enumerate(answers):
        found: dict[str, Any] = json.loads(answer)
        if found != (value if number % 3 else refusal):
            fail(f"{engine}: row {number}: {answer[:300]}")


class Process:
    """A running program. What it answers is read without a buffer, which could hide that a line has come."""

    def __init__(self, program: str, words: list[str]) -> None:
        self.named = " ".join(words)
        self.process = subprocess.Popen(
            [program, *words], stdin=subprocess.PIPE, stdout=subprocess.PIPE, stderr=subprocess.DEVNULL, bufsize=0
        )
        self.read = b""

    def write(self, lines: Iterable[str]) -> None:
        left = "".join(f"{line}\n" for line in lines).encode()
        while left and self.process.stdin is not None:
            left = left[self.process.stdin.write(left) :]

    def line(self) -> str:
        """The next line, which has to come soon."""
        while b"\n" not in self.read:
            found = self.block()
            if not found:
                fail(f"{self.named}: the output ends")
            self.read += found
        line, _, self.read = self.read.partition(b"\n")
        return line.decode()

    def block(self) -> bytes:
        assert self.process.stdout is not None
        if not select.select([self.process.stdout], [], [], SECONDS)[0]:
            self.process.kill()
            fail(f"{self.named}: no answer within {SECONDS} seconds")
        return os.read(self.process.stdout.fileno(), 1 << 16)

    def end_input(self) -> None:
        assert self.process.stdin is not None
        self.process.stdin.close()

    def end(self) -> tuple[str, int]:
        """What it still prints once its input has ended, and its status."""
        rest = self.read
        while found := self.block():
            rest += found
        return rest.decode(), self.process.wait()


def write_all(process: Process, is_last: bool) -> None:
    process.write(block_of_rows())
    if is_last:
        process.end_input()


def check_block(program: str, engine: str) -> None:
    """A thread writes the rows and ends the input, another one reads, and the status must be 0."""
    process = Process(program, DECODE)
    writer = threading.Thread(target=write_all, args=(process, True))
    writer.start()
    output, status = process.end()
    writer.join()
    if status != 0:
        fail(f"{engine}: status {status}")
    expect_answers(output.splitlines(), engine)
    passed(engine)


def check_pool(program: str) -> None:
    """ClickHouse's `executable_pool` keeps the process. It writes a block, reads one line for each row, and goes on."""
    process = Process(program, DECODE)
    for _ in range(BLOCKS):
        writer = threading.Thread(target=write_all, args=(process, False))
        writer.start()
        expect_answers([process.line() for _ in range(ROWS)], "ClickHouse's executable_pool")
        writer.join()
    process.end_input()
    if process.end() != ("", 0):
        fail("ClickHouse's executable_pool: it doesn't end as it should")
    passed("ClickHouse's executable_pool")


def check_file(command: list[str], engine: str) -> None:
    """The answers to a file of rows are a file with a JSON value on each line."""
    ended = subprocess.run(command, stdout=subprocess.PIPE, stderr=subprocess.DEVNULL, encoding="utf-8")
    if ended.returncode != 0:
        fail(f"{engine}: status {ended.returncode}")
    expect_answers(ended.stdout.splitlines(), engine)
    passed(engine)


def limit_file_size() -> None:
    resource.setrlimit(resource.RLIMIT_FSIZE, (FILE_SIZE, FILE_SIZE))


def check_cut_output(program: str, file: pathlib.Path) -> None:
    """At a file size limit, all answers that end with a line feed are complete, and the last one is cut off. (Python
    ignores the signal for that, and so does the program.)"""
    words = [program, "decode", "--lines", "--quiet", "{}", '"I16"']
    with file.open("wb") as output:
        ended = subprocess.run(
            words, input=b"cced\n" * ROWS, stdout=output, restore_signals=False, preexec_fn=limit_file_size
        )
    *answers, cut = file.read_text(encoding="ascii").split("\n")
    if ended.returncode != 4 or not answers or not cut:
        fail(f"a file size limit: status {ended.returncode}, {len(answers)} answers, and then {cut!r}")
    if {*answers} != {"-4660"} or not "-4660".startswith(cut):
        fail(f"a file size limit: it answers {cut!r}, or another complete line is wrong")
    passed("a file size limit: only the last answer is cut off")


def check_line_by_line(program: str, words: list[str], lines: list[str]) -> None:
    """Each line is answered by one line before the next one is written, whether or not it is refused."""
    process = Process(program, words)
    for line in lines:
        process.write([line])
        process.line()
    process.end_input()
    rest, _ = process.end()
    if rest:
        fail(f"{process.named}: more answers than lines: {rest[:300]}")


def main() -> None:
    program = str(program_in_folder(__doc__))
    os.chdir(ROOT)
    debian.install({"parallel": "parallel"})
    check_block(program, "ClickHouse's executable")
    check_pool(program)
    check_block(program, "Spark's pipe")
    with tempfile.TemporaryDirectory() as room:
        rows = pathlib.Path(room) / "rows"
        rows.write_text("".join(f"{row}\n" for row in block_of_rows()), encoding="utf-8")
        check_file([program, *DECODE, str(rows)], "a file for DuckDB")
        parallel = ["parallel", "--will-cite", "--pipepart", "--keep-order", "--block", "100k", "-a", str(rows)]
        check_file([*parallel, program, *DECODE], "GNU parallel")
        check_cut_output(program, pathlib.Path(room) / "limited")
        for command, (arguments, lines) in LINE_BY_LINE.items():
            for refusals in NO_REFUSALS, REFUSALS:
                check_line_by_line(program, [command, "--quiet", "--lines", *refusals, *arguments], lines)
    passed(f"line by line: {len(LINE_BY_LINE)} commands")


if __name__ == "__main__":
    main()
