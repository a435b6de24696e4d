"""The rows of tests/rows/explain.rows and explain_views.rows, and the examples whose pieces are stored beside them."""

import pathlib
import re
from collections.abc import Iterator
from typing import NamedTuple

# What each value is, in examples/: the name of its registry, and its format.
EXAMPLES = {
    "aptos_transfer": ("aptos_registry", "RawTransaction"),
    "aptos_transfer_damaged": ("aptos_registry", "RawTransaction"),
    "aptos_two_of_three": ("aptos_registry", "SignedTransaction"),
    "sui_stake": ("sui_registry", "TransactionData"),
    "sui_stake_damaged": ("sui_registry", "TransactionData"),
    "sui_transfer": ("sui_registry", "TransactionData"),
}
OPTIONS = re.compile(r"^(?:--\S+ (?:\d+ )?)*")


class ExplainRow(NamedTuple):
    """Bytes as digits, and the lines that are printed for them, as `joined` returns them. `error` is the line on
    standard error, if a table has it."""

    name: str
    registry: bytes
    options: list[str]
    format: str
    digits: str
    wanted: str
    error: str = ""


def rows_of_table(root: pathlib.Path) -> Iterator[ExplainRow]:
    registry = (root / "tests/rows/explain.json").read_bytes()
    for row in (root / "tests/rows/explain.rows").read_text(encoding="utf-8").split("\n"):
        if row and not row.startswith("#"):
            words, rest = row.split(" | ", 1)
            digits, wanted = rest.split("|", 1)
            format = OPTIONS.sub("", words)
            options = words.removesuffix(format).split()
            yield ExplainRow(row, registry, options, format, digits, wanted.strip(" "))


def rows_of_views(root: pathlib.Path) -> Iterator[ExplainRow]:
    """Rows with options that contain blanks, so the options have a column of their own."""
    registry = (root / "tests/rows/explain_views.json").read_bytes()
    for row in (root / "tests/rows/explain_views.rows").read_text(encoding="utf-8").split("\n"):
        if row and not row.startswith("#"):
            words, format, digits, wanted, *error = f" {row}".split(" | ")
            options = [word for option in words.strip().split("  ") if option for word in option.split(" ", 1)]
            yield ExplainRow(row, registry, options, format, digits, wanted.strip(" "), *error)


def rows_of_examples(root: pathlib.Path) -> Iterator[ExplainRow]:
    for name, (of_registry, format) in EXAMPLES.items():
        registry = (root / f"examples/{of_registry}.json").read_bytes()
        digits = (root / f"examples/{name}.hex").read_text(encoding="utf-8")
        table = (root / f"examples/{name}.explained").read_text(encoding="utf-8")
        yield ExplainRow(name, registry, [], format, digits, joined(without_place(table)))


def joined(text: str) -> str:
    """The lines with one blank for many, and ` / ` between them."""
    return " / ".join(re.sub(" +", " ", line).strip(" ") for line in text.removesuffix("\n").split("\n"))


def without_place(table: str) -> str:
    """A last line says where a refusal occurs, on standard error."""
    return re.sub(r"\nat .*\n$", "\n", table)
