"""Other JSON documents of a value, and documents that should be refused, each by one rule alone."""

from __future__ import annotations

import json
from typing import Any, Iterator, NamedTuple, Optional

from .tables import WIDTHS, range_of
from .trees import Tree, json_of

Key = tuple[object, ...]

# What no JSON document has. It is put where what is there doesn't matter.
_NOT_JSON = ("NaN", "Infinity", "nul", "'a'", "01", "1e400", '"\\ud800"', '"\\x41"', '"\t"', "[0,]", "{a:0}")
# More items than this aren't looked at in one list.
_MOST_ITEMS = 8


class TextChange(NamedTuple):
    """A part of a value gets another JSON. Without a reason it is still JSON of the value. One change for each key is
    enough."""

    key: Key
    reason: Optional[str]
    part: Tree
    new: Any

    def text(self, tree: Tree) -> str:
        return written(json_of(tree, self.part, self.new))


class Raw(str):
    """JSON as it is."""


def written(value: Any) -> str:
    """JSON of a value, in which objects have the order of their members' bytes."""
    if isinstance(value, Raw):
        return str(value)
    if isinstance(value, dict):
        names = sorted(value, key=str.encode)
        return "{" + ",".join(f"{written(name)}:{written(value[name])}" for name in names) + "}"
    if isinstance(value, list):
        return "[" + ",".join(map(written, value)) + "]"
    return json.dumps(value, ensure_ascii=False)


def map_changes(tree: Tree) -> Iterator[TextChange]:
    """Maps in another order than that of their bytes."""
    for part in _parts(tree):
        entries = json_of(part) if part.shape.kind == "MAP" else []
        if len(entries) > 1:
            yield TextChange(("other order", id(part.shape), len(entries)), None, part, entries[::-1])


def text_changes(tree: Tree) -> Iterator[TextChange]:
    yield from _of_document(tree)
    for part in _parts(tree):
        kind = part.shape.kind
        if kind in WIDTHS:
            yield from _of_integer(part)
        elif kind in ("BOOL", "STR", "UNIT"):
            yield from _of_leaf(part)
        elif kind == "BYTES" or kind in ("SEQ", "TUPLEARRAY") and part.shape.parts[0].kind == "U8":
            yield from _of_digits(part)
        elif kind in ("SEQ", "TUPLE", "TUPLEARRAY"):
            yield from _of_list(part)
        elif kind == "OPTION":
            yield from _of_option(part)
        elif kind == "STRUCT":
            yield from _of_struct(part)
        elif kind == "ENUM":
            yield from _of_enum(part)
        elif kind == "MAP":
            yield from _of_map(part)


def _parts(tree: Tree) -> Iterator[Tree]:
    """The parts of a value, the outer ones first. The shape of what an enum carries is one with the enum."""
    todo = [tree]
    for part in todo:
        yield part
        todo += part.parts[:_MOST_ITEMS]


def _of_document(tree: Tree) -> Iterator[TextChange]:
    text = written(json_of(tree))
    for before, after in (("\ufeff", ""), ("", ","), ("", " 0"), ("", "\0"), ("\f", ""), ("", " // end"), ("[", "")):
        yield TextChange(("document", before, after), "NotJson", tree, Raw(before + text + after))
    yield TextChange(("white space",), None, tree, Raw(f" \t\r\n{text}\r\n\t "))
    yield TextChange(("nothing",), "NotJson", tree, Raw(""))


def _others(label: str, part: Tree, *values: Any) -> Iterator[TextChange]:
    """JSON of other kinds."""
    for value in values:
        yield TextChange((label, repr(value)), "BadShape", part, value)


def _of_integer(part: Tree) -> Iterator[TextChange]:
    kind, (low, high) = part.shape.kind, range_of(part.shape.kind)
    for beyond in (high + 1, low - 1):
        yield TextChange((kind, beyond), "BadNumber", part, str(beyond))
        if -(1 << 63) <= beyond < 1 << 64:
            yield TextChange((kind, beyond, "number"), "BadNumber", part, beyond)
    for raw in ("1.0", "1e0", "-0", "0.5"):
        yield TextChange(("number", raw), "BadNumber", part, Raw(raw))
    for wide in (1 << 64, -(1 << 63) - 1):
        if low <= wide <= high:
            yield TextChange((kind, "wide", wide), "BadNumber", part, wide)
    for digits in ("01", "+1", "", "-", " 1", "1 ", "1_0", "0x1", "-0", "00", "1.0", "1e0", "٣"):
        yield TextChange(("digits", digits), "BadNumber", part, digits)
    yield from _others("no number", part, True, None, [], {})
    yield TextChange((kind, "string"), None, part, str(part.data))
    if isinstance(part.data, int) and abs(part.data) < 1 << 53:
        yield TextChange((kind, "number"), None, part, part.data)


def _of_leaf(part: Tree) -> Iterator[TextChange]:
    kind = part.shape.kind
    others = {"BOOL": (0, 1, "true", None, [True]), "STR": (0, None, [], True), "UNIT": (0, False, "", [], {})}[kind]
    yield from _others(kind, part, *others)
    if isinstance(part.data, str) and part.data.isascii() and part.data:
        escaped = "".join(f"\\u{ord(letter):04x}" for letter in part.data)
        yield TextChange(("escaped",), None, part, Raw(f'"{escaped}"'))
    if part.data == "😀":
        yield TextChange(("surrogates",), None, part, Raw('"\\ud83d\\ude00"'))
        yield TextChange(("surrogates turned",), "NotJson", part, Raw('"\\ude00\\ud83d"'))


def _of_digits(part: Tree) -> Iterator[TextChange]:
    """Byte strings, and lists of U8, which may be arrays too."""
    kind, digits = part.shape.kind, json_of(part)
    for bad in (digits + "0", digits + "0g", "0x" + digits, " " + digits, digits + " ", digits + "é"):
        if bad != "0x":
            yield TextChange((kind, bad.replace(digits, "")), "BadHex", part, bad)
    yield TextChange((kind, "number"), "BadShape", part, 0)
    if digits != digits.upper():
        yield TextChange((kind, "upper case"), None, part, digits.upper())
    if kind == "BYTES":
        yield TextChange((kind, "array"), "BadShape", part, [])
        return
    numbers = [item.data for item in part.parts]
    yield TextChange((kind, "array"), None, part, numbers)
    yield TextChange((kind, "item"), "BadNumber", part, [*numbers[:-1], 256])
    if kind == "TUPLEARRAY":
        yield TextChange(("more digits", id(part.shape)), "BadShape", part, digits + "00")
        yield TextChange(("fewer digits", id(part.shape)), "BadShape", part, digits[2:])
        yield TextChange(("more items", id(part.shape)), "BadShape", part, [*numbers, 0])


def _of_list(part: Tree) -> Iterator[TextChange]:
    kind, items = part.shape.kind, json_of(part)
    yield from _others(kind, part, None, {}, "", 0)
    if kind != "SEQ":
        yield TextChange(("more items", id(part.shape)), "BadShape", part, [*items, 0])
        if items:
            yield TextChange(("fewer items", id(part.shape)), "BadShape", part, items[:-1])


def _of_option(part: Tree) -> Iterator[TextChange]:
    yield from _others("option", part, {}, {"none": 0}, [], False)
    if part.parts:
        inner = json_of(part.parts[0])
        yield TextChange(("option", "two members"), "BadShape", part, {"some": inner, "more": None})
        # (alone it could be an absent option, or a present one)
        if inner is not None and not isinstance(inner, dict):
            yield TextChange(("bare", id(part.shape)), "BadShape", part, inner)


def _of_struct(part: Tree) -> Iterator[TextChange]:
    members, shape = json_of(part), id(part.shape)
    yield TextChange(("struct as list",), "BadShape", part, list(members.values()))
    yield TextChange(("unknown field", shape), "UnknownField", part, {**members, _unknown(members): None})
    for name in members:
        rest = {other: member for other, member in members.items() if other != name}
        yield TextChange(("missing field", shape, name), "MissingField", part, rest)
    if members:
        # of two members with one name the last one counts
        name = written(next(iter(members)))
        yield TextChange(("member twice",), None, part, Raw(f"{{{name}:null,{written(members)[1:]}"))
        for bad in _NOT_JSON:
            yield TextChange(("not JSON", bad), "NotJson", part, Raw(f"{{{name}:{bad},{written(members)[1:]}"))
    if len(members) > 1:
        yield TextChange(("members backwards",), None, part, _in_order(sorted(members, key=str.encode)[::-1], members))


def _in_order(names: list[str], members: dict[str, Any]) -> Raw:
    return Raw("{" + ",".join(f"{written(name)}:{written(members[name])}" for name in names) + "}")


def _of_enum(part: Tree) -> Iterator[TextChange]:
    shape, names = id(part.shape), part.shape.names
    name, carried = names[int(str(part.data))], part.parts[0]
    unknown = _unknown(names)
    yield TextChange(("variant", shape), "UnknownVariant", part, unknown)
    yield TextChange(("variant with payload", shape), "UnknownVariant", part, {unknown: None})
    yield TextChange(("variant by number", shape), "BadShape", part, 0)
    yield TextChange(("no variant", shape), "BadShape", part, {})
    two = {unknown: None, name: json_of(carried)}
    yield TextChange(("two variants", shape), "BadShape", part, _in_order([unknown, name], two))
    yield TextChange(("two variants, backwards", shape), "BadShape", part, _in_order([name, unknown], two))
    if carried.shape.kind == "UNIT":
        yield TextChange(("unit variant as object", shape), None, part, {name: None})
    else:
        yield TextChange(("bare variant", shape, part.data), "BadShape", part, name)


def _of_map(part: Tree) -> Iterator[TextChange]:
    shape, entries = id(part.shape), json_of(part)
    yield TextChange(("map as object", shape), "BadShape", part, {})
    if entries:
        yield TextChange(("entry of three",), "BadShape", part, [[*entries[0], 0], *entries[1:]])
        yield TextChange(("entry of one",), "BadShape", part, [entries[0][:1], *entries[1:]])
    if len(entries) > 1:
        again = [entries[0][0], entries[1][1]]
        yield TextChange(("key again", shape), "RepeatedKey", part, [*entries, again])


def _unknown(names: Any) -> str:
    name = "no_such_name"
    while name in names:
        name += "_"
    return name
