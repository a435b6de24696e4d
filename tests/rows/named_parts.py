"""Parts by names: rows `run INPUT part --name NAME ..`, and the names of pieces, which lead where their paths do."""

import json
from typing import Any

from driver import Answer, Driver, Question, Refused, expect
from explain_rows import ExplainRow
from jobs import debug, part_job, path_of
from pieces import number_of
from words import Unsayable, bytes_of, bytes_of_digits, format_of

NOTATIONS = {"--name": "name", "--pointer": "pointer"}


def run_row(driver: Driver, registry: bytes, words: list[str], wanted: str) -> str:
    """The status and the output. No call has the line on standard error, or the other options and commands."""
    given, *options = words
    is_raw = options[1:2] == ["--raw"]
    if is_raw:
        del options[1]
    if len(options) != 5 or options[0] != "part" or options[1] not in NOTATIONS:
        raise Unsayable
    _, notation, name, registry_text, format = options
    data = bytes_of(given) if is_raw else data_of(given)
    question = Question(driver, bytes_of(registry_text), format_of(format), [])
    printed = part_job(question.ask("part_named", data, path_of(name), NOTATIONS[notation]), data, is_raw)
    told = f"{printed.status} {debug(printed.output)}"
    return wanted if wanted.startswith(told + " ") else told


def data_of(digits: str) -> bytes:
    """(Where these are no digits, the name is refused before them.)"""
    try:
        return bytes_of_digits(digits.encode())
    except Unsayable:
        return b""


def names_of_pieces(driver: Driver, row: ExplainRow) -> str:
    """The names of pieces that don't lead to the part that their path leads to, or that lead into a key."""
    limits = [number_of(row.options, "--depth", "500"), number_of(row.options, "--nodes", "4294967295")]
    question, data = Question(driver, row.registry, format_of(row.format), limits), bytes_of_digits(row.digits.encode())
    try:
        explained = question.ask("explain", data, "json")
    except Refused:
        raise Unsayable from None
    if explained.fault != "-":
        raise Unsayable
    pieces = [json.loads(line) for line in explained.output.decode().splitlines()[:-1]]
    return " ".join(piece["name"] for piece in pieces if not is_named(question, data, piece))


def is_named(question: Question, data: bytes, piece: dict[str, Any]) -> bool:
    named = question.ask("part_named", data, piece["name"].encode(), "name")
    if piece["path"] is None:
        return named.status == "no"
    # (in a path, a long key is cut, and then it leads nowhere)
    if "..." in piece["path"]:
        return named.status == "done"
    by_path = question.ask("part", data, piece["path"].encode())
    return named.status == "done" and part_in(named, data) == part_in(by_path, data)


def part_in(answer: Answer, data: bytes) -> bytes:
    """SQL has a named part without its place, as the output."""
    expect(answer.status == "done", answer.status)
    part = answer.output or data[answer.place :][: answer.length]
    expect(len(part) == answer.length, f"{answer}")
    return part
