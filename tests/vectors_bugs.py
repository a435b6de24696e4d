"""The part of tests/vectors.py that plants bugs in the codec and the reader of tests/codecs. The lines have to show
each of them."""

from __future__ import annotations

import concurrent.futures
import os
import pathlib
import resource
import shutil
import subprocess
from typing import NamedTuple

from harness import ROOT, Failed

CODECS = ROOT / "tests/codecs"
# A codec with a bug may never come to an end, or take all memory.
MOST_SECONDS, MOST_BYTES = 3, 1_500_000_000


class Bug(NamedTuple):
    """A bug, and the lines that it replaces by others."""

    name: str
    changes: list[tuple[list[str], list[str]]]


def bugs_of(file: pathlib.Path) -> list[Bug]:
    """Blocks between empty lines: the name, and then lines with - and +. The first block is a comment."""
    bugs = []
    for block in file.read_text(encoding="utf-8").split("\n\n")[1:]:
        name, *lines = block.strip("\n").split("\n")
        changes: list[tuple[list[str], list[str]]] = []
        before = "+"
        for line in lines:
            sign, text = line[:1], line[2:]
            if sign not in ("-", "+") or not changes and sign == "+":
                raise Failed(f"{file.name}: {name}: {line}")
            if sign == "-" and before == "+":
                changes.append(([], []))
            changes[-1][sign == "+"].append(text)
            before = sign
        bugs.append(Bug(name, changes))
    return bugs


def planted(source: str, bug: Bug) -> str:
    """The source with the bug. Lines are found by their text, whatever their indentation."""
    lines = source.split("\n")
    for old, new in bug.changes:
        starts = [at for at in range(len(lines)) if [line.strip() for line in lines[at : at + len(old)]] == old]
        if len(starts) != 1:
            raise Failed(f"{bug.name}: {len(starts)} places, and not one, have the lines {old}")
        start = starts[0]
        margin = lines[start][: len(lines[start]) - len(lines[start].lstrip())]
        lines[start : start + len(old)] = [margin + line for line in new]
    return "\n".join(lines)


class Lines(NamedTuple):
    """Lines, and the registry that they are of."""

    registry: pathlib.Path
    file: pathlib.Path

    def length(self) -> int:
        return len(self.file.read_text(encoding="ascii").splitlines())


def limit_resources() -> None:
    resource.setrlimit(resource.RLIMIT_CPU, (MOST_SECONDS, MOST_SECONDS))
    resource.setrlimit(resource.RLIMIT_CORE, (0, 0))
    resource.setrlimit(resource.RLIMIT_AS, (MOST_BYTES, MOST_BYTES))


def wrong_lines(folder: pathlib.Path, lines: Lines) -> list[int] | None:
    """The numbers of the lines that the codec in a folder gets wrong; None if it didn't come to an end."""
    command = ["python3", "-B", str(CODECS / "check.py"), str(lines.registry), str(lines.file), str(folder)]
    ended = subprocess.run(command, capture_output=True, text=True, preexec_fn=limit_resources)
    printed = ended.stdout.splitlines()
    if printed[:1] != ["started"]:
        raise Failed(f"{folder} doesn't start: {ended.stdout}{ended.stderr}")
    if ended.returncode == 0 and printed[-1] != f"checked {lines.length()}":
        raise Failed(f"{folder} has checked other lines than the {lines.length()} of {lines.file}: {printed[-1]}")
    return [int(number) for number in printed[1:-1]] if ended.returncode == 0 else None


class Codec(NamedTuple):
    """The file that gets the bugs, the file that lists them, and the file beside it."""

    source: str
    bugs: str
    other: str


def require_all_shown(codec: Codec, lines: Lines, top: pathlib.Path) -> str:
    """The lines accept the codec, and show each of its bugs."""
    bugs = bugs_of(CODECS / codec.bugs)
    source = (CODECS / codec.source).read_text(encoding="utf-8")
    folders = {f"bug{number}": (bug.name, planted(source, bug)) for number, bug in enumerate(bugs)}
    for name, (_, text) in {"none": ("", source), **folders}.items():
        (top / name).mkdir(parents=True)
        (top / name / codec.source).write_text(text, encoding="utf-8")
        shutil.copy(CODECS / codec.other, top / name)
    wrong = wrong_lines(top / "none", lines)
    if wrong != []:
        raise Failed(f"{codec.source} is wrong in the lines {wrong}")
    with concurrent.futures.ThreadPoolExecutor(len(os.sched_getaffinity(0))) as pool:
        found = dict(zip(folders, pool.map(lambda name: wrong_lines(top / name, lines), folders)))
    for name, (bug, _) in folders.items():
        numbers = found[name]
        if numbers is not None and not 0 < len(numbers) < lines.length() // 2:
            raise Failed(f"{codec.source}: {bug}: {len(numbers)} of {lines.length()} lines show it")
    return f"{codec.source}: {len(bugs)} bugs"


CODEC = Codec("codec.py", "codec.bugs", "json_reader.py")
READER = Codec("json_reader.py", "json.bugs", "codec.py")
