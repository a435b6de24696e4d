"""Reads the JSON of values strictly, as docs/JSON.md describes it. tests/vectors.py plants bugs in
it, which are listed in json.bugs."""

from __future__ import annotations

import json
import re
from typing import Any

from codec import MOST_CONTAINERS, WIDTHS, Refused, only

MOST_NESTING = 100


class Number(str):
    """A number as it is written."""


def integer(text: str) -> int:
    """An integer as serde_json stores it: of 64 bits, and not `-0`."""
    number = int(text)
    if text == "-0" or not -(1 << 63) <= number < 1 << 64:
        raise ValueError(text)
    return number


def no_constant(name: str) -> Any:
    raise Refused(f"not JSON: {name}")


def finite(text: str) -> Number:
    if float(text) in (float("inf"), float("-inf")):
        raise Refused("not JSON: a number out of range")
    return Number(text)


def members(pairs: list[tuple[str, Any]]) -> dict[str, Any]:
    """Of two members with one name the last one counts, and the first one has to be JSON too."""
    check([list(pair) for pair in pairs], MOST_NESTING + 2)
    return dict(pairs)


def parsed(text: str) -> Any:
    numbers: dict[str, Any] = {"parse_int": Number, "parse_float": finite, "parse_constant": no_constant}
    try:
        found = json.loads(text, object_pairs_hook=members, **numbers)
    except ValueError as fault:
        raise Refused("not JSON") from fault
    check(found, MOST_NESTING)
    return found


def check(value: Any, room: int) -> None:
    """Strings are Unicode, and arrays and objects don't nest too deep."""
    if isinstance(value, str):
        if any("\ud800" <= letter <= "\udfff" for letter in value):
            raise Refused("not JSON: a lone surrogate")
    elif isinstance(value, (list, dict)):
        if not room:
            raise Refused("nested too deep")
        for part in value if isinstance(value, list) else [*value, *value.values()]:
            check(part, room - 1)


class Reader:
    def __init__(self, registry: dict[str, Any]) -> None:
        self.registry = registry
        self.depth = 0

    def value(self, format: Any, found: Any) -> Any:
        """The value in the form in which the codec has it."""
        if isinstance(format, str):
            return self.leaf(format, found)
        kind, inner = only(format)
        if kind == "TYPENAME":
            self.depth += 1
            if self.depth > MOST_CONTAINERS:
                raise Refused("too deep")
            value = self.content(self.registry[inner], found)
            self.depth -= 1
            return value
        if kind == "OPTION":
            return None if found is None else {"some": self.value(inner, self.member(found, "some"))}
        if kind == "MAP":
            return self.map(inner["KEY"], inner["VALUE"], found)
        if kind == "TUPLE":
            return [self.value(part, item) for part, item in zip(inner, self.array(found, len(inner)))]
        content, size = (inner["CONTENT"], inner["SIZE"]) if kind == "TUPLEARRAY" else (inner, None)
        if content == "U8" and self.is_string(found):
            return self.digits(found, size)
        items = [self.value(content, item) for item in self.array(found, size)]
        return bytes(items).hex() if content == "U8" else items

    def is_string(self, found: Any) -> bool:
        return isinstance(found, str) and not isinstance(found, Number)

    def leaf(self, format: str, found: Any) -> Any:
        if format in WIDTHS:
            return self.integer(format, found)
        if format == "BOOL" and isinstance(found, bool):
            return found
        if format == "STR" and self.is_string(found):
            return found
        if format == "BYTES" and self.is_string(found):
            return self.digits(found, None)
        if format == "UNIT" and found is None:
            return None
        raise Refused("bad shape")

    def integer(self, format: str, found: Any) -> Any:
        if not isinstance(found, str):
            raise Refused("bad shape")
        if self.is_string(found) and not re.fullmatch("-?(0|[1-9][0-9]*)", found, flags=re.ASCII):
            raise Refused("bad number")
        try:
            number = int(found) if self.is_string(found) else integer(found)
        except ValueError as fault:
            raise Refused("bad number") from fault
        bits = 8 * WIDTHS[format]
        low, high = (0, 1 << bits) if format.startswith("U") else (-1 << (bits - 1), 1 << (bits - 1))
        if not low <= number < high or found == "-0":
            raise Refused("bad number")
        return str(number) if bits > 32 else number

    def digits(self, found: str, size: int | None) -> str:
        if not re.fullmatch("([0-9a-fA-F]{2})*", found):
            raise Refused("bad hex")
        if size is not None and len(found) != 2 * size:
            raise Refused("bad shape")
        return found.lower()

    def array(self, found: Any, size: int | None) -> list[Any]:
        if not isinstance(found, list):
            raise Refused("bad shape")
        if size is not None and len(found) != size:
            raise Refused("bad shape")
        return found

    def member(self, found: Any, name: str) -> Any:
        if not isinstance(found, dict) or list(found) != [name]:
            raise Refused("bad shape")
        return found[name]

    def map(self, key_format: Any, value_format: Any, found: Any) -> list[Any]:
        entries = []
        for key, value in (self.array(entry, 2) for entry in self.array(found, None)):
            entries.append([self.value(key_format, key), self.value(value_format, value)])
        keys = [json.dumps(self.sorted(key_format, key), sort_keys=True) for key, _ in entries]
        if len(set(keys)) != len(keys):
            raise Refused("repeated key")
        return entries

    def sorted(self, format: Any, value: Any) -> Any:
        """A value in which the entries of maps have one order, if they are right in the key itself."""
        if isinstance(format, dict) and "MAP" in format:
            return sorted(value, key=json.dumps)
        return value

    def content(self, content: Any, found: Any) -> Any:
        """What a container or a variant holds."""
        if isinstance(content, str):
            return self.leaf("UNIT", found)
        kind, inner = only(content)
        if kind in ("NEWTYPESTRUCT", "NEWTYPE"):
            return self.value(inner, found)
        if kind in ("TUPLESTRUCT", "TUPLE"):
            return [self.value(part, item) for part, item in zip(inner, self.array(found, len(inner)))]
        return self.fields(inner, found) if kind == "STRUCT" else self.variant(inner, found)

    def fields(self, fields: list[Any], found: Any) -> dict[str, Any]:
        if not isinstance(found, dict):
            raise Refused("bad shape")
        formats = dict(map(only, fields))
        if missing := formats.keys() - found.keys():
            raise Refused(f"missing fields: {missing}")
        if unknown := found.keys() - formats.keys():
            raise Refused(f"unknown fields: {unknown}")
        return {name: self.value(format, found[name]) for name, format in formats.items()}

    def variant(self, variants: dict[str, Any], found: Any) -> Any:
        payloads = dict(map(only, variants.values()))
        if self.is_string(found):
            if payloads.get(found) != "UNIT":
                raise Refused("unknown variant, or one that carries something")
            return found
        if not isinstance(found, dict) or len(found) != 1:
            raise Refused("bad shape")
        name, payload = only(found)
        if name not in payloads:
            raise Refused("unknown variant")
        value = self.content(payloads[name], payload)
        return name if payloads[name] == "UNIT" else {name: value}


def read(registry: dict[str, Any], format: Any, text: str) -> Any:
    """The value that a JSON document represents."""
    return Reader(registry).value(format, parsed(text))
