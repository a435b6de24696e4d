"""Asks a driver for the pieces of bytes that a row of tests/rows/explain.rows or an example has."""

from driver import Driver, Question, Refused
from explain_rows import ExplainRow, joined
from jobs import FORMS, explain_job, refusal
from words import bytes_of_digits, format_of


def pieces_of(driver: Driver, row: ExplainRow) -> str:
    limits = [number_of(row.options, "--depth", "500"), number_of(row.options, "--nodes", "4294967295")]
    form = next((FORMS[name] for name in ("--json", "--tree", "--paths") if name in row.options), "ways")
    question = Question(driver, row.registry, format_of(row.format), limits)
    try:
        printed = explain_job(question, bytes_of_digits(row.digits.encode()), form)
    except Refused as fault:
        printed = refusal(fault)
    return joined(printed.output.decode())


def number_of(options: list[str], name: str, standard: str) -> str:
    """The number that follows an option."""
    return options[options.index(name) + 1] if name in options else standard
