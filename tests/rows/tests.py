"""The rows of the tests, and how many were asked."""

import pathlib
from collections import Counter
from collections.abc import Callable, Iterator
from typing import NamedTuple

from driver import Refused, Wrong
from words import Unsayable, bytes_of, unrolled

ROOT = pathlib.Path(__file__).resolve().parent.parent.parent


class Row(NamedTuple):
    """A row with the registry that it is about, and the answer that stands behind it."""

    name: str
    kind: str
    registry: bytes
    words: list[str]
    wanted: str


def rows_of_tests() -> Iterator[Row]:
    registry = b"{}"
    for file in ("crates/test_codec/stdout", "crates/test_jobs/stdout", "tests/rows/bcs.rows"):
        lines = (ROOT / file).read_text(encoding="utf-8").split("\n")
        for number, line in enumerate(lines, start=1):
            row, arrow, wanted = line.partition(" -> ")
            if arrow and not line.startswith("#"):
                kind, *words = unrolled(row).split("\t")
                if kind == "registry":
                    registry = bytes_of(words[0])
                yield Row(f"{file}, line {number}: {row}", kind, registry, words, wanted)


class Tally:
    """What was asked so far: rows by their kind, those that can't be said, and those that `--without` skips."""

    def __init__(self) -> None:
        self.covered: Counter[str] = Counter()
        self.unsayable: Counter[str] = Counter()
        self.skipped: Counter[str] = Counter()
        self.failed = 0

    def judge(self, kind: str, name: str, asked: Callable[[], str], wanted: str) -> None:
        try:
            answer = asked()
        except Unsayable:
            self.unsayable[kind] += 1
            return
        except Refused as fault:
            answer = str(fault)
        except Wrong as what:
            answer = f"disagreement: {what}"
        self.covered[kind] += 1
        if answer != wanted:
            self.failed += 1
            print(f"rows: FAILED: {name[:300]}\n  wanted {wanted[:300]}\n  answer {answer[:300]}")
