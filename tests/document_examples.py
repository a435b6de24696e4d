"""Finds the examples of a document:

    COMMAND   # ANSWER                        in a block of sh, for commands of bcs
    a block of sh, and right below it one with what all its commands print
    $ COMMAND, and below it what it prints    in any block

If every block of sh is run, one without an answer prints nothing, not even on standard error.
"""

import pathlib
import re
from collections.abc import Iterator
from typing import NamedTuple

FENCE = re.compile(r" *```(.*)")
END = re.compile(r" *```")
COMMAND_OF_BCS = re.compile(r"(^|[ (])(\./)?bcs [a-z]")
ANSWER = re.compile(r".* # (.*)")
COMMENT = re.compile(r"   *# .*")


class Example(NamedTuple):
    """Commands, and what they print: on standard output, or on standard error too."""

    line: int
    commands: str
    wanted: str
    has_errors: bool


class Block(NamedTuple):
    """The lines of a block, the line above them in the document, and whether it begins right below another block."""

    kind: str
    lines: list[str]
    start: int
    follows_another: bool

    def text(self) -> str:
        return "".join(f"{line}\n" for line in self.lines)


def blocks_of(document: str) -> Iterator[Block]:
    block, end = None, 0
    for number, line in enumerate(document.splitlines(), start=1):
        if block is None:
            if fence := FENCE.match(line):
                block = Block(re.sub("[ `]", "", fence[1]), [], number, end == number - 1)
        elif END.fullmatch(line):
            yield block
            block, end = None, number
        else:
            block.lines.append(line)


def examples_of(document: pathlib.Path, runs_all: bool) -> list[Example]:
    """The examples of a document, in which every block of sh is one if `runs_all`."""
    found: list[Example] = []
    waiting: Block | None = None
    for block in blocks_of(document.read_text(encoding="utf-8")):
        if waiting and not block.kind and block.follows_another:
            found.append(Example(waiting.start, waiting.text(), block.text(), False))
            waiting = None
            continue
        found += examples_of_block(waiting, runs_all)
        waiting = None
        if block.lines and block.lines[0].startswith("$ "):
            found += session(block)
        elif block.kind == "sh":
            waiting = block
    return found + examples_of_block(waiting, runs_all)


def examples_of_block(block: Block | None, runs_all: bool) -> list[Example]:
    """Those of a block of sh that has no answer below it."""
    if block is None:
        return []
    found = []
    for number, line in enumerate(block.lines, start=block.start + 1):
        answer = ANSWER.match(line)
        if answer and COMMAND_OF_BCS.search(line):
            found.append(Example(number, f"{line}\n", f"{answer[1]}\n", False))
    if found or not runs_all:
        return found
    return [Example(block.start, block.text(), "", True)]


def session(block: Block) -> list[Example]:
    """The commands of a block, each with what is below it, except comments."""
    found: list[Example] = []
    for number, line in enumerate(block.lines, start=block.start + 1):
        if line.startswith("$ "):
            found.append(Example(number, f"{line[2:]}\n", "", True))
        else:
            last = found[-1]
            found[-1] = last._replace(wanted=last.wanted + COMMENT.sub("", line, count=1) + "\n")
    return found
