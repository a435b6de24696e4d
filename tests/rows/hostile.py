"""Hostile names: where values with the names of hostile_names.json are refused, and their parts by name and by pointer.

Each name is a field of one struct and a variant of one enum, so that an ambiguous place or name leads to another. What
is expected follows from docs/ENCODING.md alone.
"""

import json
import pathlib
import re
from collections.abc import Callable, Iterator
from typing import Any

from driver import STANDARD_LIMITS, Driver, Question, expect
from named_parts import part_in
from places import Place, place_told
from words import format_of, in_ascii

FILE = pathlib.Path(__file__).resolve().parent / "hostile_names.json"
NOT_PLAIN = re.compile(r'[^!-~]|[!"*.:=?\[\\\]]')
# No registry here has it.
MISSING = {"TYPENAME": "missing: UnknownName: x"}
NO_CONTAINER = "no container is called missing: UnknownName: x"
NO_BOOL = "expected BOOL, true or false"


def names_in(json_value: Any) -> Iterator[str]:
    """The names of containers, fields and variants."""
    if isinstance(json_value, dict):
        for name, inner in json_value.items():
            if not (name.isdecimal() and name.isascii()):
                yield name
            yield from names_in(inner)
    elif isinstance(json_value, list):
        for inner in json_value:
            yield from names_in(inner)


def label(name: str) -> str:
    """A name in a field path."""
    if name and not NOT_PLAIN.search(name):
        return name
    return f'"{in_ascii(name)}"'


def step(name: str) -> str:
    """A name in a JSON Pointer."""
    return "/" + name.replace("~", "~0").replace("/", "~1")


def uleb(number: int) -> bytes:
    return bytes([number]) if number < 128 else bytes([number % 128 + 128, number // 128])


class Hostile:
    """The struct S and the enum E with all names, and how a driver is asked of them."""

    def __init__(self, driver: Driver) -> None:
        self.driver = driver
        self.names = list(dict.fromkeys(names_in(json.loads(FILE.read_text(encoding="utf-8")))))
        fields = [{name: "BOOL"} for name in self.names]
        variants = {str(number): {name: {"NEWTYPE": "BOOL"}} for number, name in enumerate(self.names)}
        others = {name: "UNITSTRUCT" for name in self.names}
        shapes = {**others, "S": {"STRUCT": fields}, "E": {"ENUM": variants}}
        self.registry = json.dumps(shapes, ensure_ascii=False).encode()

    def question(self, container: str) -> Question:
        return Question(self.driver, self.registry, format_of(container), [])

    def text_place(self, container: str, value: Any, where: str) -> Place | None:
        text = json.dumps(value, ensure_ascii=False).encode()
        question = self.registry, format_of(container), *STANDARD_LIMITS
        return place_told(self.driver, "text_place", *question, text, where=where)

    def stop_place(self, container: str, data: bytes) -> Place | None:
        return place_told(self.driver, "stop_place", self.registry, format_of(container), *STANDARD_LIMITS, data)

    def texts(self, number: int, name: str) -> None:
        """The field or variant has a number in place of a truth value."""
        right = Place(step(name), NO_BOOL)
        fields = {other: 7 if other == name else False for other in self.names}
        for container, value in [("S", fields), ("E", {name: 7})]:
            told = self.text_place(container, value, right.where)
            expect(told == right, f"{container}: {told}")

    def stops(self, number: int, name: str) -> None:
        for container, data, path in [
            ("S", bytes(number) + b"\7", "." + label(name)),
            ("E", uleb(number) + b"\7", "::" + label(name)),
        ]:
            told = self.stop_place(container, data)
            expect(told == Place(path, "expected BOOL, 00 or 01, found 07"), f"{container}: {told}")

    def parts(self, number: int, name: str) -> None:
        """The name and the pointer lead to the part, and another spelling leads nowhere."""
        data = bytes(number) + b"\1" + bytes(len(self.names) - number - 1)
        index = uleb(number)
        for container, value, place, mark in [("S", data, number, "."), ("E", index + b"\1", len(index), "::")]:
            for notation, word in [("name", mark + label(name)), ("pointer", step(name))]:
                found = self.question(container).ask("part_named", value, word.encode(), notation)
                expect(part_in(found, value) == b"\1", f"{container} {notation} {word}: {found}")
                # (SQL has no place)
                expect(bool(found.output) or found.place == place, f"{container} {notation} {word}: {found}")

    def registries(self, number: int, name: str) -> None:
        """A container of this name whose field of this name is refused; and one that is no container."""
        for shape, where, expected in [
            ({name: {"STRUCT": [{name: MISSING}]}}, f"{name}, field {name}", NO_CONTAINER),
            (
                {name: {"ENUM": {"7": {name: {"TUPLE": ["U8", MISSING]}}}}},
                f"{name}, variant 7 {name}, number 1",
                NO_CONTAINER,
            ),
            ({name: 7}, step(name), "expected a container; this looks like a value, and not like a registry"),
        ]:
            text = json.dumps(shape, ensure_ascii=False).encode()
            told = place_told(self.driver, "registry_place", text, where=where)
            expect(told == Place(where, expected), f"{shape}: {told}")


# A spelling of another name, and what isn't a name.
NOWHERE = [
    ("name", ".é"),
    ("name", ".\\u00e9"),
    ("name", "[0]"),
    ("pointer", "/\\u00e9"),
    ("pointer", "/~0"),
    ("pointer", "/0"),
]
NO_NAMES = [("name", ".b["), ("name", ""), ("name", '."a'), ("name", ".."), ("pointer", "b"), ("pointer", "/~2")]


def nowhere(hostile: Hostile) -> None:
    for words, status in [(NOWHERE, "no"), (NO_NAMES, "path")]:
        for notation, word in words:
            found = hostile.question("S").ask("part_named", bytes(len(hostile.names)), word.encode(), notation)
            expect(found.status == status, f"{notation} {word}: {found}")
            expect(found.fault == ("BadPath" if status == "path" else "-"), f"{notation} {word}: {found}")


def hostile_rows(driver: Driver) -> Iterator[tuple[str, Callable[[], str]]]:
    """The name of each row, and what asks it: it answers nothing."""
    hostile = Hostile(driver)

    def asks(asked: Callable[..., None], *words: Any) -> Callable[[], str]:
        def ask() -> str:
            asked(*words)
            return ""

        return ask

    for number, name in enumerate(hostile.names):
        for asked in (hostile.texts, hostile.stops, hostile.parts, hostile.registries):
            yield f"hostile names, {asked.__name__}: {name!r}", asks(asked, number, name)
    yield "hostile names: a part that isn't there", asks(nowhere, hostile)
