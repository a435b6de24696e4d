#!/usr/bin/env python3
"""Checks why the prover rejected the must-fail edits.

    tests/edits.py LOG          LOG is what `rt ci` or `rt must-fail` printed
    tests/edits.py --twins      tries the neutral twins, over the libraries that `rt ci` left

Every edit was rejected because a goal of a clause stayed open, or because its written proof proves something else.
Any other reason, for example that the borrow checker doesn't accept the edited function, or that a proof is for a
goal that the edit took away, says nothing about the contract. And the edits that tests/edits.rows lists are there,
were tried, and were rejected by the clause named there. The prover accepts the twins of those that have one. """

import argparse
import os
import pathlib
import re
import sys
import tempfile
from typing import NamedTuple

import twins
from harness import ROOT, report

ROWS = ROOT / "tests/edits.rows"
# Where the proof of a goal fails; and where a goal has no proof, which is told at a line of the source.
ANSWER = re.compile(r"(?:\./)?proofs/(?P<path>\S+)/Answers\.antt:\d+:\d+: error: `(?P<goal>[^`]+)`")
# A proof for a goal that isn't there.
NO_GOAL = re.compile(r": error: `[^`]+`: `goal\.")
SOURCE = re.compile(
    r"note: (?P<file>src/\S+?):(?P<line>\d+):\d+: it is not proved that .* holds [^(]*\(`(?P<goal>[^`]+)`\)"
)


class Row(NamedTuple):
    """An edit, the public call that it breaks, and the function of that crate with the clause that rejects it."""

    edit: str
    call: str
    function: str
    clause: str
    twin: str = ""

    @property
    def crate(self) -> str:
        return self.edit.partition("/")[0]


def rows() -> list[Row]:
    lines = [line for line in ROWS.read_text(encoding="utf-8").splitlines() if line and not line.startswith("#")]
    return [Row(*line.split("\t")) for line in lines]


def function_at(file: pathlib.Path, line: int) -> str:
    """The function that a line of the source belongs to, which may be one of the attributes before the function. An
    edit changes no line's number."""
    lines = file.read_text(encoding="utf-8").split("\n")
    while lines[line - 1].lstrip().startswith("#["):
        line += 1
    names: list[str] = re.findall(r"\bfn (\w+)", "\n".join(lines[:line]))
    return names[-1] if names else ""


def refused_by(row: Row, told: str) -> tuple[str, str]:
    """The function and the clause that reject the edit: `ensures` if the clause has no name, and the goal if it isn't
    an `ensures`."""
    if found := ANSWER.match(told):
        function = found["path"].rpartition("/")[2]
    elif found := SOURCE.match(told):
        function = function_at(ROOT / "crates" / row.crate / found["file"], int(found["line"]))
    else:
        return "", ""
    kind, _, clause = found["goal"].partition("-clause-")
    return function, (clause or "ensures") if kind.partition("-")[0] == "returns" else found["goal"]


def wrong_with(row: Row, log: str) -> str:
    """What is wrong with a row, or nothing."""
    crate = ROOT / "crates" / row.crate
    if not (ROOT / "crates" / row.edit.replace("/", "/must-fail/")).with_suffix(".edit").is_file():
        return "there is no such edit"
    if not any(
        re.search(rf'\bpub (?:extern "C" )?fn {row.call}\b', file.read_text(encoding="utf-8"))
        for file in crate.glob("src/**/*.rt")
    ):
        return f"{row.crate} has no public call {row.call}"
    told: list[str] = re.findall(rf"must-fail {re.escape(row.edit)}\.edit: (.*)", log)
    if len(told) != 1:
        return f"it was tried {len(told)} times"
    if not told[0].startswith("refused, as it must be: "):
        return told[0][:200]
    by = refused_by(row, told[0].removeprefix("refused, as it must be: "))
    return (
        ""
        if by == (row.function, row.clause)
        else f"it is refused by {' '.join(by)}, and not by {row.function} {row.clause}: {told[0]}"
    )


def rejected_otherwise(log: str) -> list[str]:
    """The lines of edits that no clause rejected."""
    lines = re.findall(r"must-fail \S+\.edit: .*", log)
    told = re.compile(r": refused, as it must be: (note: |\S+:\d+:\d+: error: )")
    return [line for line in lines if not told.search(line) or NO_GOAL.search(line)]


def check_log(listed: list[Row], log: str) -> int:
    otherwise = rejected_otherwise(log)
    for line in otherwise:
        print(f"edits: FAILED: no clause rejects this: {line}")
    wrong = {row.edit: what for row in listed if (what := wrong_with(row, log))}
    for edit, what in wrong.items():
        print(f"edits: FAILED: {edit}: {what}")
    right = len(listed) - len(wrong)
    print(f"edits: the clauses that tests/edits.rows names reject {right} planted bugs, and {len(wrong)} not")
    return 1 if otherwise or wrong or not listed else 0


def try_twins(listed: list[Row], left_out: str) -> int:
    """Tries each twin but those of one crate. A file that is the twin of no row is a fault, too."""
    having = [row for row in listed if row.twin == "twin"]
    faults = [f"no row has this twin: {name}" for name in twins.without_row({row.edit for row in having})]
    tried = [row for row in having if row.edit.partition("/")[0] != left_out]
    with tempfile.TemporaryDirectory() as kept:
        for row in tried:
            wrong = twins.wrong_with(row.edit, row.function, pathlib.Path(kept))
            print(f"edits: {row.edit}: the twin is {'not ' if wrong else ''}accepted", flush=True)
            faults += [f"{row.edit}: {wrong}"] if wrong else []
    spent = os.times()
    minutes = (spent.children_user + spent.children_system) / 60
    print(f"edits: the twins took {minutes:.1f} processor minutes")
    return report(len(tried), faults)


def main() -> int:
    parser = argparse.ArgumentParser(description=__doc__, formatter_class=argparse.RawDescriptionHelpFormatter)
    parser.add_argument("log", nargs="?", type=pathlib.Path)
    parser.add_argument("--twins", action="store_true", help="try the neutral twins")
    parser.add_argument("--without", default="", metavar="CRATE", help="leave out the twins of this crate")
    given = parser.parse_args()
    if given.twins == bool(given.log):
        parser.error("give either LOG or --twins")
    listed = rows()
    if given.twins:
        return try_twins(listed, given.without)
    return check_log(listed, given.log.read_text("utf-8", errors="replace"))


if __name__ == "__main__":
    sys.exit(main())
