"""The content of byte strings: what a BYTES, a STR, or a list or an array of U8 has without its length.

What is expected follows from docs/ENCODING.md and the rule above alone.
"""

from collections.abc import Callable, Iterator
from functools import partial
from typing import NamedTuple

from driver import Answer, Driver, Question, expect
from named_parts import part_in

LIST = '{"SEQ":{"SEQ":"U8"}}'
MAP = '{"MAP":{"KEY":"STR","VALUE":"BYTES"}}'
NOTE = '{"TUPLE":["U8","STR"]}'
LONG = "8001" + "07" * 128
# A format, bytes, a notation, the name of a part in it, and the offset and the digits of its content.
CONTENTS = [
    ('"BYTES"', "02abcd", "steps", ".", 1, "abcd"),
    ('"BYTES"', "02abcd", "name", ".", 1, "abcd"),
    ('"BYTES"', "02abcd", "pointer", "", 1, "abcd"),
    ('"BYTES"', "00", "steps", ".", 1, ""),
    ('"BYTES"', LONG, "steps", ".", 2, "07" * 128),
    ('"BYTES"', "01abff", "steps", ".", 1, "ab"),
    ('"STR"', "03e282ac", "name", ".", 1, "e282ac"),
    ('{"SEQ":"U8"}', "020102", "steps", ".", 1, "0102"),
    ('{"TUPLEARRAY":{"CONTENT":"U8","SIZE":3}}', "010203", "steps", ".", 0, "010203"),
    ('{"TUPLEARRAY":{"CONTENT":"U8","SIZE":3}}', "010203", "pointer", "", 0, "010203"),
    (LIST, "02010200", "steps", "0", 2, "02"),
    (LIST, "0201020205ff", "name", "[1]", 4, "05ff"),
    (LIST, "0201020205ff", "pointer", "/1", 4, "05ff"),
    (NOTE, "070161", "steps", "1", 2, "61"),
    (NOTE, "070161", "name", "[1]", 2, "61"),
    (NOTE, "070161", "pointer", "/1", 2, "61"),
    ('{"OPTION":"STR"}', "010161", "steps", "inner", 2, "61"),
    ('{"OPTION":"STR"}', "010161", "name", "?", 2, "61"),
    ('{"OPTION":"STR"}', "010161", "pointer", "/some", 2, "61"),
    (MAP, "01016102abcd", "steps", "key:0161", 4, "abcd"),
    (MAP, "01016102abcd", "name", "[key:0161]", 4, "abcd"),
]
# A part that is none of these, or that isn't there; and what is no name: the status and the fault.
OTHERS = [
    ('"U8"', "07", "steps", ".", "refused", "NoContent"),
    ('"U8"', "07", "name", ".", "refused", "NoContent"),
    ('"UNIT"', "", "pointer", "", "refused", "NoContent"),
    ('{"SEQ":"U16"}', "010500", "steps", ".", "refused", "NoContent"),
    ('{"SEQ":"U16"}', "00", "steps", ".", "refused", "NoContent"),
    ('{"SEQ":"I8"}', "0105", "name", ".", "refused", "NoContent"),
    ('{"TUPLE":["U8","U8"]}', "0102", "steps", ".", "refused", "NoContent"),
    ('{"TUPLEARRAY":{"CONTENT":"BOOL","SIZE":1}}', "01", "steps", ".", "refused", "NoContent"),
    (NOTE, "070161", "steps", "0", "refused", "NoContent"),
    (NOTE, "070161", "pointer", "/0", "refused", "NoContent"),
    ('{"OPTION":"STR"}', "010161", "steps", ".", "refused", "NoContent"),
    (MAP, "01016102abcd", "steps", ".", "refused", "NoContent"),
    (NOTE, "070161", "steps", "2", "no", "-"),
    (NOTE, "070161", "name", "[2]", "no", "-"),
    (NOTE, "070161", "pointer", "/2", "no", "-"),
    ('{"OPTION":"STR"}', "00", "steps", "inner", "no", "-"),
    (NOTE, "070161", "steps", "x", "path", "BadPath"),
    (NOTE, "070161", "name", "x", "path", "BadPath"),
    (NOTE, "070161", "pointer", "x", "path", "BadPath"),
    ('"BYTES"', "05ab", "steps", ".", "refused", "EndOfInput"),
    ('"STR"', "01ff", "name", ".", "refused", "BadUtf8"),
]


class Asked(NamedTuple):
    format: str
    digits: str
    notation: str
    name: str


def content(driver: Driver, asked: Asked) -> Answer:
    question, data = Question(driver, b"{}", asked.format.encode(), []), bytes.fromhex(asked.digits)
    return question.ask("content", data, asked.name.encode(), asked.notation)


def content_row(driver: Driver, asked: Asked, place: int, digits: str) -> str:
    data = bytes.fromhex(asked.digits)
    answer = content(driver, asked)
    expect(part_in(answer, data).hex() == digits, f"{answer}")
    # (SQL has no place)
    expect(bool(answer.output) or answer.length == 0 or answer.place == place, f"{answer}")
    return ""


def other_row(driver: Driver, asked: Asked, status: str, fault: str) -> str:
    answer = content(driver, asked)
    expect((answer.status, answer.fault, answer.length) == (status, fault, 0), f"{answer}")
    return ""


def rows_of_contents(driver: Driver) -> Iterator[tuple[str, Callable[[], str]]]:
    """The name of each row, and what asks it: it answers nothing."""
    for *words, place, digits in CONTENTS:
        asked = Asked(*map(str, words))
        yield f"contents: {asked}", partial(content_row, driver, asked, int(place), str(digits))
    for *words, status, fault in OTHERS:
        asked = Asked(*words)
        yield f"contents: {asked}", partial(other_row, driver, asked, status, fault)
