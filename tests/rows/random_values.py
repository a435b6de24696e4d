#!/usr/bin/env python3
"""Random values of random registries, with their bytes by the rules of docs/ENCODING.md.

    tests/rows/random_values.py REGISTRIES     prints 20 values for each registry

The tests of a language read a line for each value. Its fields, with one tab between, are REGISTRY, FORMAT, VALUE, BYTES
and CHANGED. The first two are JSON of ASCII, and the last two hexadecimal. CHANGED is BYTES with another bit, and may
encode no value; without bytes it is `-`. VALUE has words, and each comes behind what it holds:

    unit  true  false  none  some  newtype     U8:NUMBER ..  I128:NUMBER  u256:NUMBER  i256:NUMBER
    list:COUNT  array:COUNT  tuple:COUNT       map:COUNT (of entries, each a key and its value)
    text:DIGITS  address:DIGITS                bytes:DIGITS  octets:DIGITS (a list of U8)  octet-array:DIGITS
    struct.DIGITS.. (the names of fields)      variant.PAYLOAD.DIGITS (UNIT, which holds none, NEWTYPE, TUPLE, STRUCT)

The last three of bytes begin with `key-` in the keys of maps.
"""

import json
import random
import sys
from typing import Any, NamedTuple

LEAVES = ["UNIT", "BOOL", "STR", "BYTES", *(f"{sign}{width}" for sign in "UI" for width in (8, 16, 32, 64, 128))]
CHARACTERS = [*'aé"\\/~\0\1\b\t\n\f\r\x1f\x7f\u20ac\u2028\U0001f600\ufeff\uffff', " 1", "{}", "[123456789012345678901"]
NAMES = ["__proto__", "constructor", "toString", "some", "10", "null", "x~/y", "a.b"]
OF_32_BYTES = {"NEWTYPESTRUCT": {"TUPLEARRAY": {"CONTENT": "U8", "SIZE": 32}}}
# Containers with values of a form of their own, by their names.
OWN_FORMS = {"address": "address", "u256": "u256", "i256": "i256"}
VALUES = 20


class Value(NamedTuple):
    """Its word, what is behind the word, the values that it holds, its bytes, and how many nodes it has."""

    word: str
    held: Any
    parts: "list[Value]"
    data: bytes
    nodes: int = 1


def uleb(number: int) -> bytes:
    return bytes([number]) if number < 128 else bytes([number % 128 + 128]) + uleb(number // 128)


class Draw:
    """Draws registries, formats and values."""

    def __init__(self, seed: int, own_forms: dict[str, str] = OWN_FORMS) -> None:
        self.random = random.Random(seed)
        self.own_forms = own_forms
        self.registry: dict[str, Any] = {}

    def names(self, count: int) -> list[str]:
        found: dict[str, None] = {}
        while len(found) < count:
            odd = "".join(self.random.choices(CHARACTERS, k=self.random.randrange(4)))
            found[self.random.choice([odd, odd, *NAMES])] = None
        return list(found)

    def format(self, levels: int) -> Any:
        kind = self.random.choice(["LEAF", "LEAF", "TYPENAME", "OPTION", "SEQ", "TUPLE", "TUPLEARRAY", "MAP"])
        if kind == "LEAF" or levels == 0:
            return self.random.choice(LEAVES)
        if kind == "TYPENAME":
            return {kind: self.random.choice(list(self.registry))}
        if kind == "TUPLE":
            return {kind: self.formats(levels - 1)}
        if kind == "MAP":
            return {kind: {"KEY": self.format(levels - 1), "VALUE": self.format(levels - 1)}}
        inner = self.random.choice([self.format(levels - 1), self.random.choice(LEAVES), "U8"])
        return {kind: {"CONTENT": inner, "SIZE": self.random.randrange(4)} if kind == "TUPLEARRAY" else inner}

    def formats(self, levels: int) -> list[Any]:
        return [self.format(levels) for _ in range(self.random.randrange(4))]

    def content(self, kind: str) -> Any:
        if kind in ("UNIT", "UNITSTRUCT"):
            return kind
        if kind in ("NEWTYPE", "NEWTYPESTRUCT"):
            return {kind: self.format(2)}
        if kind == "STRUCT":
            return {kind: [{name: self.format(2)} for name in self.names(self.random.randrange(5))]}
        if kind != "ENUM":
            return {kind: self.formats(2)}
        names = self.names(self.random.randrange(1, 5))
        numbers = sorted(self.random.sample([0, 1, 2, 127, 128, 300, 2**32 - 1], len(names)))
        payloads = [self.content(self.random.choice(["UNIT", "NEWTYPE", "TUPLE", "STRUCT"])) for _ in names]
        return {kind: {str(number): {name: held} for number, name, held in zip(numbers, names, payloads)}}

    def new_registry(self) -> dict[str, Any]:
        """A container names earlier ones, so that each value has an end."""
        self.registry = {name: OF_32_BYTES for name in self.own_forms}
        kinds = ["UNITSTRUCT", "NEWTYPESTRUCT", "TUPLESTRUCT", "STRUCT", "STRUCT", "ENUM", "ENUM"]
        for name in self.names(self.random.randrange(1, 7)):
            self.registry[name] = self.content(self.random.choice(kinds))
        return self.registry

    def any_format(self) -> Any:
        return self.random.choice([{"TYPENAME": self.random.choice(list(self.registry))}, self.format(3)])

    def value(self, format: Any) -> Value:
        if isinstance(format, str):
            return self.leaf(format)
        [(kind, inner)] = format.items()
        if kind == "TYPENAME":
            return self.container(inner)
        if kind == "OPTION":
            return self.option(inner)
        if kind == "TUPLE":
            return holder("tuple", [self.value(part) for part in inner])
        if kind == "MAP":
            return self.map(inner["KEY"], inner["VALUE"])
        if kind == "TUPLEARRAY":
            return self.list("array", inner["CONTENT"], inner["SIZE"])
        length = self.random.choice([0, 1, 2, 3, 130 if isinstance(inner, str) else 0])
        return self.list("list", inner, length)

    def container(self, name: str) -> Value:
        """The container is a node, and so are an array of 32 bytes and each of them."""
        form = self.own_forms.get(name)
        if form == "address":
            number = self.random.choice([1, 10, self.integer(256, False)])
            return Value(form, number.to_bytes(32, "big"), [], number.to_bytes(32, "big"), 34)
        if form:
            return self.number(form, 34)
        shape = self.registry[name]
        held = self.held(*((shape, None) if isinstance(shape, str) else next(iter(shape.items()))))
        return held._replace(nodes=1 + held.nodes)

    def held(self, kind: str, inner: Any) -> Value:
        if kind == "UNITSTRUCT":
            return Value("unit", None, [], b"")
        if kind == "NEWTYPESTRUCT":
            held = self.value(inner)
            return Value("newtype", None, [held], held.data, held.nodes)
        if kind == "STRUCT":
            fields = [next(iter(field.items())) for field in inner]
            return holder("struct", [self.value(part) for _, part in fields], held=[name for name, _ in fields])
        if kind != "ENUM":
            return holder("tuple", [self.value(part) for part in inner])
        number, variant = self.random.choice(list(inner.items()))
        [(name, payload)] = variant.items()
        if payload == "UNIT":
            return Value("variant", (payload, name), [], uleb(int(number)), 2)
        [(kind, inner)] = payload.items()
        part = self.value(inner) if kind == "NEWTYPE" else self.held(kind, inner)
        return holder("variant", [part], uleb(int(number)), (kind, name))

    def integer(self, bits: int, is_signed: bool) -> int:
        least = -(2 ** (bits - 1)) if is_signed else 0
        most = least + 2**bits - 1
        number: int = self.random.choice([0, 1, least, most, self.random.randint(least, most), 2**53 % most])
        return number

    def number(self, word: str, nodes: int = 1) -> Value:
        bits, is_signed = int(word[1:]), word[0] in "Ii"
        number = self.integer(bits, is_signed)
        return Value(word, number, [], number.to_bytes(bits // 8, "little", signed=is_signed), nodes)

    def leaf(self, word: str) -> Value:
        if word == "UNIT":
            return Value("unit", None, [], b"")
        if word == "BOOL":
            truth = self.random.random() < 0.5
            return Value("true" if truth else "false", truth, [], bytes([truth]))
        if word == "STR":
            text = "".join(self.random.choices(CHARACTERS, k=self.random.choice([0, 1, 3, 60])))
            return Value("text", text, [], uleb(len(text.encode())) + text.encode())
        if word == "BYTES":
            data = self.random.randbytes(self.random.choice([0, 1, 3, 200]))
            return Value("bytes", data, [], uleb(len(data)) + data)
        return self.number(word)

    def option(self, inner: Any) -> Value:
        if self.random.random() < 0.3:
            return Value("none", None, [], b"\0")
        return holder("some", [self.value(inner)], b"\1")

    def list(self, word: str, inner: Any, length: int) -> Value:
        parts = [self.value(inner) for _ in range(length)]
        made = holder(word, parts, uleb(length) if word == "list" else b"")
        if inner != "U8":
            return made
        octets = bytes(part.held for part in parts)
        return made._replace(word={"list": "octets", "array": "octet-array"}[word], held=octets, parts=[])

    def map(self, key: Any, value: Any) -> Value:
        """The entries rise by the bytes of their keys, which differ."""
        drawn = [(self.value(key), self.value(value)) for _ in range(self.random.randrange(5))]
        entries = sorted({one.data: (one, other) for one, other in drawn}.values(), key=lambda entry: entry[0].data)
        return holder("map", [part for entry in entries for part in entry], uleb(len(entries)))


def holder(word: str, parts: list[Value], head: bytes = b"", held: Any = None) -> Value:
    data = head + b"".join(part.data for part in parts)
    return Value(word, held, parts, data, 1 + sum(part.nodes for part in parts))


def words_of(value: Value, is_key: bool = False) -> str:
    """The words of what a value holds, and then its own."""
    words = [words_of(part, is_key or value.word == "map" and place % 2 == 0) for place, part in enumerate(value.parts)]
    word = value.word
    if word in ("bytes", "octets", "octet-array"):
        word = f"{'key-' if is_key else ''}{word}:{value.held.hex()}"
    elif word in ("text", "address"):
        word += ":" + (value.held if word == "address" else value.held.encode()).hex()
    elif word == "variant":
        word += f".{value.held[0]}.{value.held[1].encode().hex()}"
    elif word == "struct":
        word += "".join(f".{name.encode().hex()}" for name in value.held)
    elif word in ("list", "array", "tuple", "map"):
        word += f":{len(value.parts) // (2 if word == 'map' else 1)}"
    elif isinstance(value.held, int) and not isinstance(value.held, bool):
        word += f":{value.held}"
    return " ".join([*words, word])


def lines(seed: int) -> list[str]:
    """The lines for one registry."""
    draw = Draw(seed)
    registry = json.dumps(draw.new_registry())
    made = []
    for _ in range(VALUES):
        format = draw.any_format()
        value = draw.value(format)
        changed = "-"
        if value.data:
            bit = draw.random.randrange(8 * len(value.data))
            number = int.from_bytes(value.data, "little") ^ 1 << bit
            changed = number.to_bytes(len(value.data), "little").hex()
        asked = json.dumps(format)
        made.append("\t".join([registry, asked, words_of(value), value.data.hex(), changed]))
    return made


if __name__ == "__main__":
    for each in range(int(sys.argv[1])):
        print("\n".join(lines(each)))
