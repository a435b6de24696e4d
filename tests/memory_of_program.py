"""Runs `bcs` at a job once for each of its requests for memory, with that request refused.

Each run must report that memory ran out, and nothing else. If it answers `--lines`, it may print the lines before. A
few runs may answer all the same, since what the program asked for was only room in advance. Each of these is repeated
with all later requests refused, too. A line on standard error that says where a refusal occurs may be left out a few
times. While the program opens the file of `-o`, a run may report that it can't write that file.
"""

import re
import subprocess
from typing import NamedTuple

from harness import Failed
from memory_of_calls import END

OUT_OF_MEMORY = "fault: memory"


class Job(NamedTuple):
    """A command line, and what it must answer if each request is granted: the status and what is printed.

    The text is that of both streams, in which * represents any text. If `place` isn't empty, it is the line on standard
    error that follows `text`. At most `hints` runs may answer though a request was refused, and at most `left_out` runs
    may leave out the place.
    """

    status: int
    text: str
    words: list[str]
    place: str = ""
    hints: int = 1
    left_out: int = 0

    def name(self) -> str:
        return f"bcs {' '.join(self.words)}"


class Ending(NamedTuple):
    """How a run ended, and what it printed, without the last line feed."""

    status: int
    output: str
    note: str


class Runs(NamedTuple):
    """The endings of several runs, and how many requests the last one made."""

    endings: list[Ending]
    requests: int


class Program:
    """The program, the library that refuses requests, and the standard input of every run."""

    def __init__(self, program: str, refuser: str, stdin: str) -> None:
        self.program, self.refuser, self.stdin = program, refuser, stdin

    def runs(self, words: list[str], ranges: list[str]) -> Runs:
        """A run for each range of requests: `7`, `7-` for all from the seventh on, and `0` for none."""
        refused = {"LD_PRELOAD": self.refuser, "REFUSE": " ".join(ranges)}
        with open(self.stdin, "rb") as stdin:
            ended = subprocess.run(
                [self.program, *words], stdin=stdin, stdout=subprocess.PIPE, stderr=subprocess.PIPE, env=refused
            )
        outputs, notes = END.split(ended.stdout), END.split(ended.stderr)
        if len(outputs) != len(notes) or len(outputs) != 3 * len(ranges) + 1:
            raise Failed(f"bcs {' '.join(words)}: {len(outputs) // 3} runs of {len(ranges)}")
        endings = [
            Ending(int(status), line_of(output), line_of(note))
            for output, note, status in zip(outputs[:-1:3], notes[:-1:3], outputs[1::3], strict=True)
        ]
        return Runs(endings, int(outputs[-2]))

    def sweep(self, job: Job) -> list[str]:
        """What is printed on a job. One with a place is run with --quiet, too, since then it prints no place."""
        granted = self.runs(job.words, ["0"])
        [wanted] = granted.endings
        if wanted.status != job.status or not fits(wanted.output + wanted.note, job.text + job.place):
            raise Failed(f"{job.name()} with all granted: {told(wanted)}")
        bare = without_place(wanted) if job.place else None
        if bare == wanted:
            raise Failed(f"{job.name()} prints no place")
        again, left = self.sweep_requests(job, wanted, bare, granted.requests)
        counts = f"{granted.requests} requests, each refused in turn; {again} of them with all behind it"
        line = f"memory: {job.name()}: {counts}"
        if bare is None:
            return [line]
        command, *words = job.words
        quiet = job._replace(words=[command, "--quiet", *words], text=bare.output + bare.note, place="")
        return [f"{line}; {left} without its place", *self.sweep(quiet)]

    def sweep_requests(self, job: Job, wanted: Ending, bare: Ending | None, total: int) -> tuple[int, int]:
        """How many runs were repeated with all later requests refused, and how many left out their place."""
        ranges = [str(number) for number in range(1, total + 1)]
        endings = self.runs(job.words, ranges).endings
        again = [f"{number}-" for number, ending in zip(ranges, endings, strict=True) if ending == wanted]
        refused = [(number, ending) for number, ending in zip(ranges, endings, strict=True) if ending != wanted]
        if len(again) > job.hints:
            raise Failed(
                f"{job.name()}: {len(again)} runs answer though a request was refused, and at most {job.hints} may: "
                f"{' '.join(again)}"
            )
        if again:
            refused += zip(again, self.runs(job.words, again).endings, strict=True)
        left = sum(ending == bare for _, ending in refused)
        if left > job.left_out:
            raise Failed(
                f"{job.name()}: {left} runs leave out their line on standard error, and at most {job.left_out} may"
            )
        for number, ending in refused:
            if ending != bare and not is_out_of_memory(job, wanted, ending):
                raise Failed(f"{job.name()} with request {number} refused: {told(ending)}")
        return len(again), left


def line_of(printed: bytes) -> str:
    return printed.decode("latin-1").removesuffix("\n")


def told(ending: Ending) -> str:
    return f"status {ending.status}, {ending.output}, {ending.note}"


def fits(text: str, pattern: str) -> bool:
    return bool(re.fullmatch(".*".join(map(re.escape, pattern.split("*"))), text, re.DOTALL))


def without_place(ending: Ending) -> Ending:
    """The same with no place on standard error. A fault is on standard error, too."""
    if ending.status == 4:
        return ending._replace(note=ending.note.rpartition("\nin the ")[0] or ending.note)
    return ending._replace(note="")


def is_out_of_memory(job: Job, wanted: Ending, ending: Ending) -> bool:
    """Whether it reports that memory ran out; the answers of lines before that may be printed."""
    if ending.status != 4:
        return False
    if ending.output == "" and ending.note == OUT_OF_MEMORY:
        return True
    is_note = ending.note == OUT_OF_MEMORY or ending.note.startswith(f"{OUT_OF_MEMORY}\nline ")
    return is_note and "--lines" in job.words and wanted.output.startswith(ending.output)
