"""Checks that ./test finds a wrong answer: self_test.py PROGRAM. `./test --self-test` runs this.

PROGRAM is one that passes. Each planted bug changes one of its answers, or answers of the table. ./test must report
each, whether it is alone or not.
"""

import pathlib
import re
import shlex
import subprocess
import tempfile
from typing import NamedTuple

from harness import ROOT, arguments, fail, passed


class Planted(NamedTuple):
    """An answer of the tested program to the arguments of one test, which is changed, and the line that reports it."""

    name: str
    words: str
    answer: str
    reported: str


# What ./test is tried with: one bug alone, and all the others together.
PLANTED = [
    [
        Planted(
            "a wrong standard error",
            "check -- {",
            "echo refused: NotJson; echo at line 1, column 2: NotJson >&2; exit 2",
            r"rows: FAILED: line \d+ of bcs\.rows: bcs\t--where\tcheck\t\{: standard error has ",
        )
    ],
    [
        Planted(
            "a wrong output",
            "check --quiet -- {}",
            "echo ok 1; exit 0",
            r"rows: FAILED: line \d+ of bcs\.rows: bcs\tcheck\t\{\}: the output is 'ok 1",
        ),
        Planted(
            "a wrong status",
            'check --quiet -- {"S":{"ENUM":{}}}',
            "echo ok 1; exit 2",
            r'rows: FAILED: line \d+ of bcs\.rows: bcs\tcheck\t\{"S":\{"ENUM":\{\}\}\}: the status is 2$',
        ),
        Planted(
            "a wrong table",
            "explain examples/sui_registry.json TransactionData examples/sui_stake.hex",
            "exit 0",
            "explain: FAILED: the table of sui_stake: $",
        ),
        Planted(
            "a missing output",
            "encode examples/sui_registry.json TransactionData examples/sui_transfer.json --base64",
            "exit 0",
            r"examples: FAILED: examples/README\.md, line \d+: ",
        ),
        Planted(
            "a wrong example",
            'example {"S":{"STRUCT":[{"a":{"OPTION":"U8"}},{"b":{"SEQ":"BOOL"}}]}} S --full',
            "exit 0",
            "examples: FAILED: the help of example: ",
        ),
    ],
]
# Changes of the table: an output, a status, a standard error, parts of usage and of help, and the status of a command
# line.
WRONG_ANSWERS = [
    (r'^(bcs\tcheck\t\{\} -> 0 )"ok 0', r'\1"ok 1'),
    (r"^(bcs\tcheck\t\[\] -> )2", r"\g<1>0"),
    (r'^(bcs\t--where\tdecode\t\{\}\t"BOOL"\t02 -> .*)expected BOOL, 00 or 01, found 02$', r"\1expected U8"),
    (r"^(usage\t<OLD>)\t", r"\1?\t"),
    (r"^(help\tCommands:)\t", r"\1?\t"),
    (r'^(run\t-4660\tencode\t\{\}\t"I16" -> )0', r"\g<1>1"),
]


def find_planted(bugs: list[Planted], program: str, room: pathlib.Path) -> None:
    """Checks that ./test fails for exactly as many tests as there are bugs, and reports each of them."""
    wrong = room / "wrong"
    cases = "".join(f"    {shlex.quote(bug.words)}) {bug.answer} ;;\n" for bug in bugs)
    wrong.write_text(f'#!/bin/sh\ncase "$*" in\n{cases}esac\nexec {shlex.quote(program)} "$@"\n', encoding="utf-8")
    wrong.chmod(0o755)
    ended = subprocess.run([ROOT / "test", "--quick", "--program", wrong], stdout=subprocess.PIPE, text=True)
    last = ended.stdout.rstrip("\n").rpartition("\n")[2]
    names = ", ".join(bug.name for bug in bugs)
    if ended.returncode == 0:
        fail(f"{names}: passes")
    if not re.fullmatch(rf"[1-9]\d* passed, {len(bugs)} failed", last):
        fail(f"{names}: {last}")
    for bug in bugs:
        if len(re.findall(f"^{bug.reported}", ended.stdout, re.MULTILINE)) != 1:
            fail(f"{bug.name}: not one line reports it:\n{ended.stdout}")
    passed(f"found: {names}: {last}")


def find_wrong_table(program: str, room: pathlib.Path) -> None:
    """Checks that each wrong answer of a table is found."""
    text = (ROOT / "tests/rows/bcs.rows").read_text(encoding="utf-8")
    for old, new in WRONG_ANSWERS:
        text = re.sub(old, new, text, flags=re.MULTILINE)
    table = room / "table"
    table.write_text(text, encoding="utf-8")
    ended = subprocess.run([ROOT / "tests/rows/program.py", program, table], stdout=subprocess.PIPE, text=True)
    last = ended.stdout.rstrip("\n").rpartition("\n")[2]
    if ended.returncode == 0:
        fail("a wrong table passes")
    if not re.fullmatch(rf"rows: [1-9]\d* passed, {len(WRONG_ANSWERS)} failed", last):
        fail(f"a wrong table: {last}")
    passed(f"{len(WRONG_ANSWERS)} wrong answers of a table are found")


def main() -> None:
    program = arguments(__doc__, "program").program
    with tempfile.TemporaryDirectory() as room:
        find_wrong_table(program, pathlib.Path(room))
        for bugs in PLANTED:
            find_planted(bugs, program, pathlib.Path(room))


if __name__ == "__main__":
    main()
