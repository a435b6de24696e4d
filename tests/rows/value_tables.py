"""The tables in the folder values: each value of a language at each format, and the formats as types of a language.

formats.rows has the formats, and LANGUAGE.rows the values, with tabs in each line:

    VALUE ;; VALUE   FOUND   CELLS

The driver makes a value: VALUE is an expression of the language, or the name of a sample. FOUND is what a rejection
calls it. A cell has the names of formats, and what happens there; ` | ` is between two cells:

    U8 U16 = 05             these are the bytes
    [U8;2] ! BadShape /1    the library refuses the value at this JSON Pointer, or the whole value
    [U8] [U16] @/1 bool     the binding rejects a part: a bool, in the words of the line `takes` for its format
    U8 @/1: {} is odd       the same in these words, with the format's name for {}
    number 5 -6             at integers the bytes of 5, or out of their range what the line `range` says; -6 is that of
                            the second VALUE

At all other formats the value itself is rejected as FOUND. Without a line `takes`, a table has no words: `[U8] @/1` is
a pointer, and FOUND isn't read. Lines before the values:

    takes U8 U16: {} takes an int   the words of a rejection, before `, not FOUND`; with the format's name for {}
    takes F32: ! Unsupported        nothing is accepted there
    range U8 U16: ! BadNumber       a cell; with the format's name and the number for {} and {n}
    plain U8? Point?                an option's cell is that of the value in it
    places whole field              the value is alone, and in a field `v`; others: `newtype`, `item` of a list

A line of a type has its name, the word `as`, and cells: what the bytes of formats.rows are decoded to, as text. At all
other formats the type is rejected, and no words are read.

LANGUAGE-PACKAGE.rows has further lines of values, which need that package.
"""

import json
import pathlib
import sys
from collections.abc import Callable, Iterator
from functools import partial
from typing import Any, NamedTuple

from driver import STANDARD_LIMITS, Answer, Driver, expect
from tests import Tally

FOLDER = pathlib.Path(__file__).resolve().parent / "values"
# Where a value is: alone, as a newtype, in a field `v`, or in a list; the step to it, and the bytes before its own.
PLACES = {"whole": ("", ""), "newtype": ("", ""), "field": ("/v", ""), "item": ("/0", "01")}
# This file as a script ends after so many wrong cells.
MOST_WRONG = 20
# What is reported for the whole value, wherever it is.
OF_WHOLE = ("RepeatedKey", "the type's Serialize went on after the error of a part")
WIDTHS = {f"{sign}{bits}": (bits // 8, sign == "I") for sign in "IU" for bits in (8, 16, 32, 64, 128)}
WIDTHS |= {"Byte": WIDTHS["U8"], "Id": WIDTHS["U64"], "u256": (32, False), "i256": (32, True)}


class Cell(NamedTuple):
    """What happens at a format: `=` and the bytes; `!`, the fault and a pointer; or `@`, the pointer and the words of a
    rejection."""

    mark: str
    text: str
    pointer: str = ""

    def __str__(self) -> str:
        return f"{self.mark}{self.pointer}: {self.text}"

    def under(self, step: str, before: str = "") -> "Cell":
        """The same of what holds the value."""
        if self.mark == "=":
            return self._replace(text=before + self.text)
        return self if self.text in OF_WHOLE else self._replace(pointer=step + self.pointer)


class Format(NamedTuple):
    json: Any
    bytes: str | None


def formats() -> tuple[dict[str, Any], dict[str, Format]]:
    """The containers of the registry, and the formats by their names."""
    containers, found = {}, {}
    for line in (FOLDER / "formats.rows").read_text(encoding="utf-8").splitlines():
        name, *words = line.split(" ")
        if name != "#" and words[0] == "=":
            containers[name] = json.loads(words[1])
        elif name != "#":
            found[name] = Format(json.loads(words[0]), words[1].replace("-", "") if words[1:] else None)
    return containers, found


CONTAINERS, FORMATS = formats()
HOLDERS = {f"field {name}": {"STRUCT": [{"v": format.json}]} for name, format in FORMATS.items()}
HOLDERS |= {f"newtype {name}": {"NEWTYPESTRUCT": format.json} for name, format in FORMATS.items()}
REGISTRY = json.dumps({**CONTAINERS, **HOLDERS}, ensure_ascii=False).encode()
NAMES = {json.dumps(format.json): name for name, format in FORMATS.items()}


def part_of(format: Any, step: str) -> Any:
    """The format of a part, or "entry" for that of a map."""
    if isinstance(format, str):
        return "U8"
    ((kind, inner),) = format.items()
    if kind == "TYPENAME":
        return part_of(CONTAINERS[inner], step)
    if kind == "ENUM":
        payload = next(variant[step] for variant in inner.values() if step in variant)
        return payload.get("NEWTYPE", payload) if isinstance(payload, dict) else payload
    if kind == "STRUCT":
        return next(field[step] for field in inner if step in field)
    if kind == "MAP":
        return {"ENTRY": [inner["KEY"], inner["VALUE"]]}
    if kind in ("TUPLE", "TUPLESTRUCT", "ENTRY"):
        return inner[int(step)]
    if kind == "NEWTYPESTRUCT":
        return part_of(inner, step)
    return inner["CONTENT"] if kind == "TUPLEARRAY" else inner


def name_at(name: str, pointer: str) -> str:
    """The name of the format of a part."""
    format = FORMATS[name].json
    for step in pointer.split("/")[1:]:
        format = part_of(format, step)
    return (
        "entry" if isinstance(format, dict) and "ENTRY" in format else NAMES.get(json.dumps(format), json.dumps(format))
    )


def rows_of(values: str, found: str, cells: str) -> Iterator[list[str]]:
    """A row for each value of a line, with its own one of several numbers."""
    first, bar, others = cells.partition(" | ")
    word, *numbers = first.split(" ")
    for place, value in enumerate(values.split(" ;; ")):
        own = f"number {(numbers * (place + 1))[place]}" if word == "number" else first
        yield [value, found, own + bar + others]


class Table:
    """What a language's table says."""

    def __init__(self, language: str, package: str = "") -> None:
        self.takes: dict[str, str] = {}
        self.range: dict[str, str] = {}
        self.plain: list[str] = []
        self.places = ["whole"]
        self.rows: list[list[str]] = []
        for line in (FOLDER / f"{language}.rows").read_text(encoding="utf-8").splitlines():
            word, _, rest = line.partition(" ")
            names, _, text = rest.partition(": ")
            if "\t" in line:
                self.rows += rows_of(*line.split("\t"))
            elif word in ("takes", "range"):
                getattr(self, word).update(dict.fromkeys(names.split(" "), text))
            elif word in ("plain", "places"):
                setattr(self, word, rest.split(" "))
        if package:
            lines = (FOLDER / f"{language}-{package}.rows").read_text(encoding="utf-8").splitlines()
            self.rows = [row for line in lines if "\t" in line for row in rows_of(*line.split("\t"))]

    def asked(self, found: str) -> list[tuple[str, str]]:
        """The formats and the places where a row's value is asked."""
        places = [(at, place) for at in FORMATS for place in self.places]
        if found == "as":
            return [(at, place) for at, place in places if FORMATS[at].bytes is not None and place != "item"]
        return places

    def cell_count(self) -> int:
        return sum(len(self.asked(found)) for _, found, _ in self.rows)

    def words(self, name: str, found: str) -> str:
        return f"{self.takes[name].replace('{}', name)}, not {found}" if self.takes else ""

    def cell_of(self, name: str, text: str) -> Cell:
        """A cell at this format."""
        mark, said = text[0], text[1:]
        if mark == "=":
            return Cell(mark, said.strip())
        if mark == "!":
            fault, _, pointer = said.strip().partition(" ")
            return Cell(mark, fault, pointer)
        pointer, _, rest = said.partition(" ")
        if not self.takes:
            return Cell(mark, "", pointer)
        if pointer.endswith(":"):
            return Cell(mark, rest.replace("{}", name), pointer[:-1])
        return Cell(mark, self.words(name_at(name, pointer), rest), pointer)

    def number(self, name: str, number: int) -> Cell:
        width, is_signed = WIDTHS[name]
        try:
            return Cell("=", number.to_bytes(width, "little", signed=is_signed).hex())
        except OverflowError:
            return self.cell_of(name, self.range[name].replace("{}", name).replace("{n}", str(number)))

    def listed(self, row: str) -> dict[str, Cell]:
        """The cells of a row by the names of formats."""
        cells: dict[str, Cell] = {}
        for text in filter(None, row.split(" | ")):
            if text.startswith("number "):
                cells |= {name: self.number(name, int(text.removeprefix("number "), 0)) for name in WIDTHS}
                continue
            mark = min((place for place in map(text.find, (" =", " ! ", " @")) if place > 0), default=-1)
            expect(mark > 0, f"no mark: {text}")
            cells |= {name: self.cell_of(name, text[mark + 1 :]) for name in text[:mark].split(" ")}
        expect(cells.keys() <= FORMATS.keys(), f"unknown formats in {row}")
        return cells

    def cell(self, name: str, found: str, listed: dict[str, Cell]) -> Cell:
        takes = self.takes.get(name, "")
        if name in listed:
            return listed[name]
        if takes.startswith("! "):
            return self.cell_of(name, takes)
        if name in self.plain:
            inner = self.cell(name.removesuffix("?"), found, listed)
            return inner._replace(text=f"01{inner.text}") if inner.mark == "=" else inner.under("/some")
        return Cell("@", self.words(name, found))


def question(name: str, place: str) -> tuple[str | bytes, ...]:
    """The registry, the format and the limits for a value at this place."""
    format = {"whole": FORMATS[name].json, "item": {"SEQ": FORMATS[name].json}}.get(
        place, {"TYPENAME": f"{place} {name}"}
    )
    return (REGISTRY, json.dumps(format).encode(), *STANDARD_LIMITS)


def told(answer: Answer, has_words: bool, is_text: bool) -> str:
    """A driver's answer as a cell."""
    if answer.status == "done":
        return str(Cell("=", answer.output.decode() if is_text else answer.output.hex()))
    said = answer.output.decode("utf-8", "surrogatepass").partition("\n")
    if answer.status == "value" and answer.fault == "WrongType":
        return str(Cell("@", said[2] if has_words and not is_text else "", said[0]))
    if answer.status == "bytes":
        return str(Cell("!", answer.fault))
    return str(Cell("!" if answer.status == "text" else answer.status, answer.fault, said[0]))


def tables_of(language: str) -> dict[str, Table]:
    """The tables of a language by the package that their values need, "" for none."""
    packages = [path.stem.partition("-")[2] for path in sorted(FOLDER.glob(f"{language}*.rows"))]
    return {package: Table(language, package) for package in packages}


def rows_of_values(driver: Driver, table: Table) -> Iterator[tuple[str, Callable[[], str], str]]:
    """Asks for all cells of a table: the name of a row, what asks it, and what it has to answer."""
    for name, found, cells in table.rows:
        listed = table.listed(cells)
        asked = partial(asked_as, name) if found == "as" else partial(asked_of, name)
        places = table.asked(found)
        answers = driver.ask_all(asked(*at) for at in places)
        for (at, place), answer in zip(places, answers, strict=True):
            wanted = table.cell(at, found, listed).under(*PLACES[place])
            if found == "as" and wanted.mark != "=":
                wanted = wanted._replace(text="") if wanted.mark == "@" else wanted._replace(pointer="")
            yield f"values: {name} at {at}, {place}", partial(told, answer, bool(table.takes), found == "as"), str(
                wanted
            )


def asked_of(value: str, name: str, place: str) -> tuple[str | bytes, ...]:
    """The line for a value at a format."""
    return ("value", *question(name, place), value.encode(), place)


def asked_as(type: str, name: str, place: str) -> tuple[str | bytes, ...]:
    """The line for the bytes of a format as a type."""
    return ("typed", *question(name, place), bytes.fromhex(FORMATS[name].bytes or ""), type.encode(), place)


def main(words: list[str]) -> int:
    language, *command = words
    driver, tally = Driver(command), Tally()
    for table in tables_of(language).values():
        for row in rows_of_values(driver, table):
            tally.judge("values", *row)
            if tally.failed == MOST_WRONG:
                return 1
    driver.end()
    print(f"values: {tally.covered.total()} cells, {tally.failed} of them wrong")
    return 0 if tally.covered.total() and not tally.failed else 1


if __name__ == "__main__":
    sys.exit(main(sys.argv[1:]))
