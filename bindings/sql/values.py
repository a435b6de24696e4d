"""JSON documents at formats, for the tests of both databases: the bytes of docs/ENCODING.md, or a rejection.
Nothing here calls what is tested."""

from __future__ import annotations

import json
import re
from collections.abc import Iterator
from decimal import Decimal
from typing import Any

REGISTRY = (
    '{"P":{"STRUCT":[{"to":"STR"},{"amount":"U64"}]},"E":{"ENUM":{"0":{"Stop":"UNIT"},"1":{"Send":{"NEWTYPE":"U8"}}}}}'
)
STRUCT, ENUM = {"TYPENAME": "P"}, {"TYPENAME": "E"}


class Number(str):
    """A JSON number as it is written."""


def length(number: int) -> bytes:
    data = bytearray()
    while number > 127:
        data.append(number & 127 | 128)
        number >>= 7
    return bytes(data) + bytes([number])


class Rejected(Exception):
    """The document represents no value of the format."""


def integer(written: str, is_jsonb: bool) -> int:
    """The integer that a JSON number holds. jsonb stores the value and the digits after the point, and no exponent."""
    if is_jsonb:
        parts = re.fullmatch(r"(-?\d+)(?:\.(\d+))?(?:[eE]([+-]?\d+))?", written)
        if not parts or len(parts[2] or "") > int(parts[3] or 0):
            raise Rejected
        written = str(int(Decimal(written)))
    if not re.fullmatch(r"0|-?[1-9]\d*", written) or not -(2**63) <= int(written) < 2**64:
        raise Rejected
    return int(written)


def encoded_number(format: str, given: Any, is_jsonb: bool) -> bytes:
    if isinstance(given, Number):
        number = integer(given, is_jsonb)
    elif isinstance(given, str) and re.fullmatch(r"0|-?[1-9]\d*", given):
        number = int(given)
    else:
        raise Rejected
    try:
        return number.to_bytes(int(format[1:]) // 8, "little", signed=format[0] == "I")
    except OverflowError:
        raise Rejected from None


def encoded_word(format: str, given: Any, is_jsonb: bool) -> bytes:
    """For a format without parts."""
    if re.fullmatch(r"[UI]\d+", format):
        return encoded_number(format, given, is_jsonb)
    text = given if isinstance(given, str) and not isinstance(given, Number) else None
    if format == "UNIT" and given is None:
        return b""
    if format == "BOOL" and isinstance(given, bool):
        return bytes([given])
    if format == "STR" and text is not None:
        return length(len(text.encode())) + text.encode()
    if format == "BYTES" and text is not None and re.fullmatch("([0-9a-fA-F]{2})*", text):
        return length(len(text) // 2) + bytes.fromhex(text)
    raise Rejected


def encoded_parts(format: dict[str, Any], given: Any, is_jsonb: bool) -> bytes:
    ((kind, of),) = format.items()
    if kind == "OPTION":
        if given is None:
            return b"\0"
        if isinstance(given, dict) and list(given) == ["some"]:
            return b"\1" + encoded(of, given["some"], is_jsonb)
    elif kind == "SEQ" and of == "U8" and isinstance(given, str) and not isinstance(given, Number):
        return encoded_word("BYTES", given, is_jsonb)
    elif kind == "SEQ" and isinstance(given, list):
        return length(len(given)) + b"".join(encoded(of, item, is_jsonb) for item in given)
    elif kind == "TUPLE" and isinstance(given, list) and len(given) == len(of):
        return b"".join(encoded(part, item, is_jsonb) for part, item in zip(of, given))
    elif kind == "MAP" and isinstance(given, list) and all(isinstance(item, list) and len(item) == 2 for item in given):
        pairs = [(encoded(of["KEY"], key, is_jsonb), encoded(of["VALUE"], item, is_jsonb)) for key, item in given]
        if len(dict(pairs)) == len(pairs):
            return length(len(pairs)) + b"".join(key + item for key, item in sorted(pairs))
    elif format == STRUCT and isinstance(given, dict) and sorted(given) == ["amount", "to"]:
        return encoded("STR", given["to"], is_jsonb) + encoded("U64", given["amount"], is_jsonb)
    elif format == ENUM and given in ("Stop", {"Stop": None}) and not isinstance(given, Number):
        return b"\0"
    elif format == ENUM and isinstance(given, dict) and list(given) == ["Send"]:
        return b"\1" + encoded("U8", given["Send"], is_jsonb)
    raise Rejected


def encoded(format: Any, given: Any, is_jsonb: bool) -> bytes:
    if isinstance(format, str):
        return encoded_word(format, given, is_jsonb)
    return encoded_parts(format, given, is_jsonb)


def digits_of(format: Any, text: str, is_jsonb: bool = False) -> str | None:
    """The bytes of a value in hexadecimal; None if the JSON document represents no value of the format."""
    try:
        return encoded(format, json.loads(text, parse_int=Number, parse_float=Number), is_jsonb).hex()
    except Rejected:
        return None


def doubling(count: int) -> str:
    """Each container has two of the next, and the last one has no bytes: few bytes have 2 ** count nodes."""
    pair = [{"TYPENAME": f"T{number + 1}"} for number in range(count)]
    registry = {f"T{number}": {"TUPLESTRUCT": [pair[number], pair[number]]} for number in range(count)}
    return json.dumps({**registry, f"T{count}": "UNITSTRUCT"})


BAD_BOOL = "expected BOOL, 00 or 01, found 02"


def bad_at_the_end(size: int) -> Iterator[tuple[str, bytes, str]]:
    """Formats, bytes whose last one is refused with BAD_BOOL, and how its place ends.

    They are a list, and one under a long key, which is part of the path to each of its elements.
    """
    yield '{"SEQ":"BOOL"}', length(size) + b"\1" * (size - 1) + b"\2", f"[{size - 1}]"
    half = size // 2
    listed = length(half) + b"\1" * (half - 1) + b"\2"
    map = '{"MAP":{"KEY":"STR","VALUE":{"SEQ":"BOOL"}}}'
    yield map, b"\1" + length(half) + b"k" * half + listed, f"[{half - 1}]"


def cells(table: str) -> list[str]:
    """What is between two bars, or on a line."""
    return re.split(r" \| |\s*\n\s*", table.strip())


FORMATS: list[Any] = [
    *(f"{sign}{bits}" for sign in "UI" for bits in (8, 16, 32, 64, 128)),
    *"UNIT BOOL STR BYTES F32 F64 CHAR".split(),
    *({"OPTION": of} for of in ("U8", "UNIT")),
    *({"SEQ": of} for of in ("U8", "U16", "STR")),
    {"TUPLE": ["U8", "BOOL"]},
    {"MAP": {"KEY": "STR", "VALUE": "U8"}},
    STRUCT,
    ENUM,
]
NUMBERS = [
    *"0 7 -7 127 128 255 256 -128 -129 65535 65536".split(),
    *(str(2**bits + step) for bits in (53, 63, 64, 128) for step in (-1, 0, 1)),
    *(str(-(2**63) - step) for step in (0, 1)),
]
TEXTS = [
    *NUMBERS,
    *(f'"{number}"' for number in NUMBERS),
    *cells(
        """
        1.0 | 1.5 | 1e3 | 1E0 | 1.5e1 | 1.50e1 | 10e-1 | -0 | -0.0 | 0e0 | 9007199254740993.0 | 9.007199254740993e15
        1.8446744073709551615e19 | 1e40 | 1e-40 | "1.0" | "1e3" | "07" | "+7" | " 7" | "-0" | "" | "0x07" | "0a"
        "0A" | "bob" | "true" | "null" | "é" | true | false | null | [] | [7] | [7.0] | [256] | ["7"] | [true]
        [7,true] | [7,1] | ["a","b"] | [["a",7]] | [["b",1],["a",2]] | [["a",1],["a",2]] | {} | {"some":7}
        {"some":null} | {"a":7} | {"to":"bob","amount":7} | {"amount":"7","to":"bob"} | {"to":"bob"}
        {"to":"bob","amount":7.0} | {"to":7,"amount":7} | {"to":"bob","amount":7,"more":1} | "Stop" | {"Stop":null}
        {"Send":7} | {"Send":"7"} | "Send"
        """
    ),
]
