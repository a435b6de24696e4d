"""Writes the rows of tests/rows/bcs.rows in a form that a small program in C reads (tests/rows.c).

Each line has words with one tab between each two, all but the first in hexadecimal digits:

    file NAME BYTES SIZE                            the file is there for the lines below; it is as long as SIZE says
    row NAME KIND STATUS INPUT OUTPUT ERROR WORD..  a row, with the command line behind it

KIND is `whole`, or `out` or `error`: then that stream has the part, and the other one nothing. INPUT is `/` for a
folder, which can't be read. OUTPUT and ERROR that end in .. are prefixes.
"""

from __future__ import annotations

import pathlib
import sys
from collections.abc import Iterator

sys.path.insert(0, str(pathlib.Path(__file__).resolve().parent.parent.parent / "tests/rows"))
from program_rows import Row, question_of, rows_of  # noqa: E402 (the folder has to be known first)
from words import bytes_of  # noqa: E402

KINDS = {"both": b"whole", "output": b"out", "error": b"error"}
FOLDER = b"/"


def line(kind: str, *words: bytes) -> str:
    return "\t".join([kind, *(word.hex() for word in words)]) + "\n"


def file(name: str, data: bytes, size: str = "") -> str:
    return line("file", name.encode(), data, size.encode())


def flat_row(row: Row) -> Iterator[str]:
    if row.kind == "file":
        name, data, *size = row.words
        yield file(name, bytes_of(data), *size)
        return
    question = question_of(row, "row.")
    for name, content in question.files.items():
        yield file(name, content)
    yield line(
        "row",
        f"line {row.line}: {row.text[:150]}".encode(),
        KINDS[question.stream],
        str(question.status).encode(),
        FOLDER if question.stdin is None else question.stdin,
        question.output,
        question.error,
        *question.words,
    )


def flat(table: str) -> str:
    """All rows of a table."""
    return "".join(text for row in rows_of(table) for text in flat_row(row))
