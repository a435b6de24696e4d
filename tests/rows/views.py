"""Pieces inside of byte strings, and values of Move: the rows of explain_views.rows through the call with views."""

import json
import re

from driver import Driver, Question, Refused, expect
from explain_rows import ExplainRow, joined
from jobs import FORMS, explained, refusal
from pieces import number_of
from words import bytes_of_digits, format_of

VIEWS = ("--inside", "--call", "--address", "--u256", "--i256")


def lines_of(options: list[str]) -> str:
    """The views of a row's options, a line for each."""
    named = zip(options, options[1:])
    return "\n".join(f"{option.removeprefix('--')} {view}" for option, view in named if option in VIEWS)


NOTE = re.compile(r"at --\w+, (.*): (no.*)")


def told_of(row: ExplainRow) -> str:
    """What a call returns for a row. Notes, which the program prints on standard error, are in its text: as lines at
    the end, or in JSON as objects before the last one."""
    if "refused:" in row.wanted or '"refused":' in row.wanted or not row.error:
        return row.wanted
    notes = re.split("; (?=at --)", row.error)
    if "--json" not in row.options:
        return " / ".join([row.wanted, *(f"note: {note}" for note in notes)])
    *lines, end = row.wanted.split(" / ")
    return " / ".join([*lines, *map(object_of, notes), end])


def object_of(note: str) -> str:
    told = NOTE.fullmatch(note)
    assert told, note
    return json.dumps({"name": told[1], "note": told[2]}, separators=(",", ":"))


def views_row(driver: Driver, row: ExplainRow) -> str:
    limits = [number_of(row.options, "--depth", "500"), number_of(row.options, "--nodes", "4294967295")]
    form = next((FORMS[name] for name in ("--json", "--tree", "--paths") if name in row.options), "ways")
    question = Question(driver, row.registry, format_of(row.format), limits)
    data, views = bytes_of_digits(row.digits.encode()), lines_of(row.options).encode()
    try:
        answer = question.ask("explain_with", data, form, views)
    except Refused as fault:
        return joined(refusal(fault).output.decode())
    if answer.status == "path":
        return joined(refusal(answer.fault).output.decode())
    expect(answer.status == "done", answer.status)
    return joined(explained(answer, form).output.decode())
