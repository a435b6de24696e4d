"""What a row of tests/rows/bcs.rows asks of the program. The comments at the top of that table say how to read one."""

import re
from collections.abc import Iterator
from typing import NamedTuple

from words import bytes_of, unrolled

ESCAPES = {"n": "\n", "r": "\r", "t": "\t", "0": "\0", '"': '"', "\\": "\\"}
ESCAPE = re.compile(r"\\(?:u\{([0-9a-f]+)\}|(.))")
TEXT = re.compile(r'"((?:[^"\\]|\\.)*)" ?')


class BadRow(Exception):
    """A row whose question or answer isn't understood."""


class Row(NamedTuple):
    """A row of the table: its question as text, and as words in which repetitions are unrolled."""

    line: int
    text: str
    kind: str
    words: list[str]
    answer: str


class Question(NamedTuple):
    """A command line, and the answer that it must have.

    `files` must exist, and `stdin` is None if reading the standard input must fail. If `stream` is "both", `output`
    and `error` are the whole text of each, or its start and `..`. If it names a stream, that one contains the text
    given here, and the other one is empty.
    """

    files: dict[str, bytes]
    stdin: bytes | None
    words: list[bytes]
    stream: str
    status: int
    output: bytes
    error: bytes


def rows_of(table: str) -> Iterator[Row]:
    """The rows of a table."""
    for number, line in enumerate(table.split("\n"), start=1):
        if line and not line.startswith("#"):
            text, _, answer = line.partition(" -> ")
            kind, *words = unrolled(text).split("\t")
            yield Row(number, text, kind, words, answer)


def question_of(row: Row, folder: str) -> Question:
    """What a row asks. The files that it needs for itself get names that begin with `folder`."""
    try:
        if row.kind == "bcs":
            return question_of_job(row, Job(row.words, folder))
        if row.kind == "run":
            return question_of_line(row)
        if row.kind in ("usage", "help") and row.answer == "has it":
            return question_of_text(row)
    except (ValueError, IndexError, KeyError):
        pass
    raise BadRow(f"line {row.line} isn't understood")


def question_of_job(row: Row, job: "Job") -> Question:
    status, _, rest = row.answer.partition(" ")
    if rest.startswith("0x"):
        word, _, told = rest.partition(" ")
        output = bytes_of(word)
    else:
        output, told = taken_text(rest)
    error = f"{told}\n".encode() if told else b""
    words = [word.encode() for word in job.words]
    return Question(job.files, job.stdin, words, "both", int(status), output, error)


def question_of_line(row: Row) -> Question:
    status, _, rest = row.answer.partition(" ")
    output, rest = taken_text(rest)
    error, _ = taken_text(rest)
    stdin, *words = map(bytes_of, row.words)
    return Question({}, stdin, words, "both", int(status), output, error)


def question_of_text(row: Row) -> Question:
    part, *words = (word.encode() for word in row.words)
    if row.kind == "usage":
        return Question({}, None, words, "error", 3, b"", part)
    return Question({}, None, words, "output", 0, part, b"")


def taken_text(answer: str) -> tuple[bytes, str]:
    """The string literal at the start of an answer, and what follows it."""
    found = TEXT.match(answer)
    if not found:
        raise ValueError(answer)
    return ESCAPE.sub(unescaped, found[1]).encode(), answer[found.end() :]


def unescaped(found: re.Match[str]) -> str:
    """The character that an escape of a string literal represents."""
    sign = chr(int(found[1], 16)) if found[1] else ESCAPES[found[2]]
    if not sign.isascii():
        raise ValueError(found[0])
    return sign


class Job:
    """The command line, the files and the input of a row `bcs`."""

    def __init__(self, words: list[str], folder: str) -> None:
        self.folder = folder
        self.files: dict[str, bytes] = {}
        self.stdin: bytes | None = None
        is_quiet = words[0] != "--where"
        command, *rest = words if is_quiet else words[1:]
        options = [command] + ["--quiet"] * is_quiet
        while rest and rest[0].startswith("--"):
            count = 2 if rest[0] in ("--variant", "--a", "--b") else 1
            # (no option means the ways)
            options += [word for word in rest[:count] if word != "--ways"]
            rest = rest[count:]
        named = [self.registry(rest.pop(0), "registry"), *self.named_of(command, rest)]
        if rest and command != "example":
            self.stdin = bytes_of(rest.pop(0))
        if rest:
            depth, nodes = rest
            options += ["--depth", depth, "--nodes", nodes]
        self.words = [*options, "--", *named]

    def named_of(self, command: str, rest: list[str]) -> list[str]:
        """The arguments after the registry, which are taken away from the words."""
        match command:
            case "check" | "show" | "from-move":
                named = rest.copy()
                rest.clear()
                return named
            case "grows":
                return [self.registry(rest.pop(0), "newer")]
            case "which":
                return []
            case "part":
                return [rest.pop(0), rest.pop(0).removeprefix("0x")]
            case "same" | "diff":
                return [rest.pop(0), self.file("first", bytes_of(rest.pop(0) if rest else "x"))]
        return [rest.pop(0)]

    def registry(self, word: str, name: str) -> str:
        """A registry is an argument if it begins with {, and a file otherwise."""
        return word if word.startswith("{") else self.file(name, bytes_of(word))

    def file(self, name: str, data: bytes) -> str:
        path = self.folder + name
        self.files[path] = data
        return path
