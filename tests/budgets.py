#!/usr/bin/env python3
"""tests/budgets.py: whether each part of the tree is within its limit in tests/budgets.rows.

It prints the figure of each part, its limit and its goal, over the files that git tracks. A part with nothing in it
fails, too: its pathspecs would name no file, and its limit would never be reached.
"""

from __future__ import annotations

import pathlib
import re
from collections.abc import Callable
from typing import NamedTuple

from harness import ROOT, Failed, arguments, end_with, report, run

ROWS = ROOT / "tests/budgets.rows"
ROW = re.compile(r"([^:]+): (\w+) (\d+) (\d+) (.+)")
UNITS: dict[str, Callable[[bytes], int]] = {
    "bytes": len,
    "lines": lambda content: content.count(b"\n"),
    "words": lambda content: len(content.split()),
}


class Budget(NamedTuple):
    """A row. Its limit is above the goal for as long as the goal isn't reached."""

    name: str
    unit: str
    goal: int
    limit: int
    paths: list[str]

    def figure(self, top: pathlib.Path) -> int:
        files = run("git", "ls-files", "-z", "--", *self.paths, folder=top).split("\0")[:-1]
        return sum(UNITS[self.unit]((top / file).read_bytes()) for file in files if (top / file).is_file())


def budget_of(row: str) -> Budget:
    found = ROW.fullmatch(row)
    if not found or found[2] not in UNITS or int(found[3]) > int(found[4]):
        raise Failed(f"no row of budgets: {row}")
    return Budget(found[1], found[2], int(found[3]), int(found[4]), found[5].split())


def budgets(rows: pathlib.Path) -> list[Budget]:
    lines = rows.read_text(encoding="utf-8").splitlines()
    return [budget_of(line) for line in lines if not line.startswith("#")]


def line_of(budget: Budget, figure: int) -> str:
    free = figure < budget.limit * 0.99 and budget.limit > budget.goal
    note = "; lower the limit" if free else ""
    return f"{budget.name}: {figure:,} {budget.unit}, limit {budget.limit:,}, goal {budget.goal:,}{note}"


def fault_of(budget: Budget, figure: int) -> str:
    """Nothing if the part is within its limit."""
    if figure == 0:
        return f"{budget.name}: it has no {budget.unit}: {' '.join(budget.paths)}"
    return f"{budget.name}: {figure - budget.limit:,} {budget.unit} above its limit" if figure > budget.limit else ""


def check(top: pathlib.Path, rows: pathlib.Path) -> int:
    figures = [(budget, budget.figure(top)) for budget in budgets(rows)]
    for budget, figure in figures:
        print(line_of(budget, figure))
    return report(len(figures), [fault for budget, figure in figures if (fault := fault_of(budget, figure))])


def main() -> int:
    arguments(__doc__)
    return check(ROOT, ROWS)


if __name__ == "__main__":
    end_with(main)
