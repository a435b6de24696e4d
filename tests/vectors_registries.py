"""The part of tests/vectors.py that changes registries in one place. The lines of the right one have to show it."""

from __future__ import annotations

import copy
import json
import pathlib
import sys
from collections.abc import Iterator
from typing import Any

from harness import ROOT, Failed

sys.path[:0] = [str(ROOT / "tests/codecs"), str(ROOT / "bindings/python")]
import check  # noqa: E402 (the folders have to be known first)
import codec  # noqa: E402
import json_reader  # noqa: E402

import bcs_proved  # noqa: E402
from bcs_proved.vectors import lines as lines_of  # noqa: E402
from bcs_proved.vectors.verdicts import Line, Verdicts  # noqa: E402

Registry = dict[str, Any]
Path = tuple[Any, ...]

# What a format may be mistaken for.
MISTAKEN: dict[str, list[Any]] = {
    "U8": ["I8", "U16", "BOOL"],
    "U16": ["I16", "U8", "U32"],
    "U32": ["I32", "U64"],
    "U64": ["I64", "U32", "U128"],
    "U128": ["I128", "U64"],
    "I8": ["U8"],
    "I16": ["U16", "I8"],
    "I32": ["U32"],
    "I64": ["U64", "I32"],
    "I128": ["U128"],
    "BOOL": ["U8"],
    "STR": ["BYTES"],
    "BYTES": ["STR", {"SEQ": "U16"}],
    "UNIT": ["BOOL"],
}


def formats(thing: Any, path: Path) -> Iterator[tuple[Path, Any]]:
    """All formats in a format, each with the path to it."""
    yield path, thing
    if isinstance(thing, dict):
        kind, inner = codec.only(thing)
        if kind == "MAP":
            parts = [(path + (kind, name), inner[name]) for name in ("KEY", "VALUE")]
        elif kind == "TUPLEARRAY":
            parts = [(path + (kind, "CONTENT"), inner["CONTENT"])]
        elif kind == "TUPLE":
            parts = [(path + (kind, index), part) for index, part in enumerate(inner)]
        else:
            parts = [] if kind == "TYPENAME" else [(path + (kind,), inner)]
        for there, part in parts:
            yield from formats(part, there)


def contents(registry: Registry) -> Iterator[tuple[Path, str, Any]]:
    """What containers and variants hold, with its kind."""
    for name, container in registry.items():
        if isinstance(container, dict):
            kind, inner = codec.only(container)
            yield (name, kind), kind, inner
            for number, variant in inner.items() if kind == "ENUM" else []:
                called, payload = codec.only(variant)
                if isinstance(payload, dict):
                    yield (name, kind, number, called, *payload), *codec.only(payload)


def at(thing: Any, path: Path) -> Any:
    for step in path:
        thing = thing[step]
    return thing


def changed(registry: Registry, path: Path, new: Any) -> Registry:
    """A copy that has something else there."""
    found = copy.deepcopy(registry)
    at(found, path[:-1])[path[-1]] = new
    return found


def other_formats(format: Any) -> Iterator[Any]:
    yield {"OPTION": format}
    if isinstance(format, str):
        yield from MISTAKEN.get(format, [])
        return
    kind, inner = codec.only(format)
    if kind == "OPTION":
        yield from (inner, {"SEQ": inner})
    elif kind == "SEQ":
        yield from ({"OPTION": inner}, {"SEQ": {"TUPLE": [inner, inner]}})
    elif kind == "MAP":
        yield {"SEQ": {"TUPLE": [inner["KEY"], inner["VALUE"]]}}
    elif kind == "TUPLEARRAY":
        yield {"SEQ": inner["CONTENT"]}
        yield from ({kind: {**inner, "SIZE": size}} for size in (inner["SIZE"] - 1, inner["SIZE"] + 1) if size >= 0)


def other_rows(row: list[Any]) -> Iterator[list[Any]]:
    """Two neighbours swapped, and the last one left out."""
    for index in range(len(row) - 1):
        yield [*row[:index], row[index + 1], row[index], *row[index + 2 :]]
    if len(row) > 1:
        yield row[:-1]


def other_variants(variants: dict[str, Any]) -> Iterator[dict[str, Any]]:
    numbers = sorted(variants, key=int)
    for one, other in zip(numbers, numbers[1:]):
        yield {**variants, one: variants[other], other: variants[one]}
    for number in numbers:
        yield {other: variants[other] for other in numbers if other != number}
    if numbers:
        yield {**variants, str(int(numbers[-1]) + 1): {"OneMore": "UNIT"}}


def changes(registry: Registry) -> Iterator[tuple[str, Registry]]:
    """Registries that differ in one place, each with the container in which they do."""
    for path, kind, inner in contents(registry):
        others: list[tuple[Path, Any]] = []
        if kind == "ENUM":
            others += [(path, other) for other in other_variants(inner)]
        elif kind == "STRUCT":
            starts = [path + (index, *field) for index, field in enumerate(inner)]
            others += [(path, other) for other in other_rows(inner)]
        elif kind in ("TUPLESTRUCT", "TUPLE"):
            starts = [path + (index,) for index in range(len(inner))]
            others += [(path, other) for other in other_rows(inner)]
        else:
            starts = [path]
        for start in [] if kind == "ENUM" else starts:
            for there, format in formats(at(registry, start), start):
                others += [(there, other) for other in other_formats(format)]
        for there, other in others:
            if other != at(registry, there):
                yield path[0], changed(registry, there, other)


def users(registry: Registry, name: str) -> list[str]:
    """The containers whose values can have one of this name in them, and itself first."""
    found = [name]
    for known in found:
        needle = f'"TYPENAME": {json.dumps(known)}'
        found += [other for other in registry if other not in found and needle in json.dumps(registry[other])]
    return found


def is_shown(registry: Registry, name: str, lines: dict[str, list[Line]]) -> bool:
    """Whether a line shows that a codec has a registry that is wrong in this container."""
    for format in users(registry, name):
        for line in lines[format]:
            try:
                has_passed = check.is_right(codec, json_reader, registry, line)
            except Exception:  # (whatever the codec does beside refusing is wrong)
                has_passed = False
            if not has_passed:
                return True
    return False


def is_same(registry: Registry, other: Registry, name: str) -> bool:
    """Whether the library makes the same of both in this container, as far as the other one's own lines show."""
    verdicts = Verdicts(bcs_proved.Registry(registry))
    count = 0
    for line in lines_of(json.dumps(other), [name], count=20):
        is_text = "text" in line
        own = verdicts.of_text(name, line["text"]) if is_text else verdicts.of_bytes(name, bytes.fromhex(line["bytes"]))
        # (the reason and the place of a refusal may differ)
        if own is None or any(own.get(member) != line.get(member) for member in ("json", "bytes")):
            return False
        if ("refused" in own) != ("refused" in line):
            return False
        count += 1
    return count > 0


def require_changes_shown(file: pathlib.Path, vectors: pathlib.Path) -> tuple[int, int]:
    """How many changed registries the lines show, and how many have the same bytes and JSON as the right one."""
    registry = json.loads(file.read_text(encoding="utf-8"))
    lines: dict[str, list[Line]] = {name: [] for name in registry}
    for text in vectors.read_text(encoding="ascii").splitlines():
        line = json.loads(text)
        lines[line["format"]].append(line)
    count, same = 0, 0
    for name, other in changes(registry):
        if is_shown(other, name, lines):
            count += 1
        elif is_same(registry, other, name):
            same += 1
        else:
            raise Failed(f"{file.name}: no line shows that {name} is {other[name]}")
    return count, same
