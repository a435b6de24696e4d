#!/usr/bin/env python3
"""tests/differences.py PAIRS: whether `bcs diff` is right about PAIRS pairs of random values.

It asks the `bcs` of the variable PATH. It has to print no difference if the encodings are equal, and at least one
otherwise. Of each line, the names lead `bcs part` to the places that it has, and the bytes there differ. Without the
bytes of all lines, both values have the same bytes. No key is only in A and only in B.
"""

import copy
import json
import pathlib
import random
import re
import subprocess
import tempfile
from typing import Any

from harness import arguments, end_with, passed, require

NODE: dict[str, Any] = {"TYPENAME": "Node"}
REGISTRY = {
    "Node": {
        "ENUM": {
            "0": {"Number": {"NEWTYPE": "U32"}},
            "1": {"Text": {"NEWTYPE": "STR"}},
            "2": {"List": {"NEWTYPE": {"SEQ": NODE}}},
            "3": {"Map": {"NEWTYPE": {"MAP": {"KEY": "STR", "VALUE": NODE}}}},
            "4": {"Set": {"NEWTYPE": {"MAP": {"KEY": "U8", "VALUE": "UNIT"}}}},
            "5": {"Fields": {"STRUCT": [{"a": NODE}, {"b.": {"OPTION": NODE}}, {"c": {"SEQ": "U8"}}]}},
            "6": {"Pair": {"TUPLE": ["BOOL", {"TUPLEARRAY": {"CONTENT": "I16", "SIZE": 2}}]}},
            "7": {"Numbers": {"NEWTYPE": {"SEQ": "U8"}}},
            "8": {"Nothing": "UNIT"},
        }
    }
}
ENDS_WITH_KEY = re.compile(r"\[key:[^]]*\]$")
KEYS = ["", "a", "é", "k" * 31, "k" * 99]


def node(some: random.Random, levels: int) -> Any:
    """The JSON of a random value."""
    kinds = ["Number", "Text", "Numbers", "Pair", "Set", "Nothing"] + levels * ["List", "List", "Map", "Fields"]
    deeper = levels - 1
    match some.choice(kinds):
        case "Number":
            return {"Number": some.choice([0, 1, 7, 2**32 - 1])}
        case "Text":
            return {"Text": some.choice(["", "é", "x" * 70, "x" * 69 + "y"])}
        case "Numbers":
            return {"Numbers": [some.randrange(3) for _ in range(some.choice([0, 1, 40]))]}
        case "Pair":
            return {"Pair": [some.random() < 0.5, [some.randrange(-2, 2), 5]]}
        case "Set":
            return {"Set": [[key, None] for key in some.sample(range(9), some.randrange(4))]}
        case "List":
            return {"List": [node(some, deeper) for _ in range(some.randrange(6))]}
        case "Map":
            return {"Map": [[key, node(some, deeper)] for key in some.sample(KEYS, some.randrange(4))]}
        case "Fields":
            inner = some.choice([None, {"some": node(some, deeper)}])
            return {"Fields": {"a": node(some, deeper), "b.": inner, "c": [1, some.randrange(3)]}}
    return "Nothing"


def nodes_in(value: Any) -> list[Any]:
    """All JSON objects in a value that are nodes."""
    if isinstance(value, list):
        return [it for part in value for it in nodes_in(part)]
    if not isinstance(value, dict):
        return []
    return [value, *(it for part in value.values() for it in nodes_in(part))]


def edited(some: random.Random, value: Any) -> Any:
    """A copy with up to five edits."""
    value = copy.deepcopy(value)
    for _ in range(some.randrange(6)):
        lists = [it["List"] for it in nodes_in(value) if "List" in it]
        maps = [it[kind] for it in nodes_in(value) for kind in ("Map", "Set") if it.get(kind)]
        if lists and some.random() < 0.7:
            spot = some.choice(lists)
            spot.insert(some.randrange(len(spot) + 1), spot.pop() if some.random() < 0.5 and spot else node(some, 1))
            if some.random() < 0.3:
                del spot[some.randrange(len(spot))]
        elif maps:
            spot = some.choice(maps)
            del spot[some.randrange(len(spot))]
        else:
            value = node(some, 3)
    return value


def bcs(*words: str, given: bytes = b"") -> tuple[int, str]:
    asked = subprocess.run(["bcs", *words], input=given, capture_output=True, check=False)
    return asked.returncode, asked.stdout.decode()


def span(line: dict[str, Any], side: str, data: bytes) -> tuple[int, int]:
    """Which bytes of the value a line is about."""
    part = line[side]
    start, end = part["place"], part["place"] + part["size"]
    if line["difference"] == "length":
        return start, next(place for place in range(start, end) if data[place] < 0x80) + 1
    if line["difference"] == "only":
        start -= len(key_of(part)) // 2
    return start, end


def key_of(part: dict[str, Any]) -> str:
    """The digits of the key, if the part is the value of a map's entry, perhaps in containers."""
    while (part["path"] or "").endswith("/inner") and part["name"].endswith("]"):
        part = {**part, "path": part["path"].removesuffix("/inner")}
    before, _, digits = (part["path"] or "").rpartition("key:")
    return "" if "/" in digits or not part["name"].endswith("]") else digits


def check(registry: str, values: list[Any], file: pathlib.Path) -> int:
    texts = [json.dumps(value).encode() for value in values]
    data = [bytes.fromhex(bcs("encode", registry, "Node", given=text)[1]) for text in texts]
    file.write_bytes(texts[0])
    status, output = bcs("diff", "--json", registry, "Node", str(file), given=texts[1])
    *lines, last = map(json.loads, output.splitlines())
    require(last == {"differences": len(lines)} and status == (data[0] != data[1]) == bool(lines), output)
    rest = [bytearray(it) for it in data]
    only = []
    for line in reversed(lines):
        for side, it, left in zip("ab", data, rest):
            if not line[side]:
                continue
            start, end = span(line, side, it)
            del left[start:end]
            part = line[side]
            if part["path"]:
                asked = bcs("part", "--range", "--name", part["name"], registry, "Node", given=it.hex().encode())
                require(asked == (0, f"{part['place']} {part['size']}\n"), f"{part}: {asked}")
        if line["a"] and line["b"]:
            first, second = (it[line[s]["place"] :][: line[s]["size"]] for s, it in zip("ab", data))
            require(first != second, f"{line}")
        else:
            only.append((line["a"] or line["b"])["name"])
    keys = [name for name in only if ENDS_WITH_KEY.search(name)]
    require(rest[0] == rest[1] and len(keys) == len(set(keys)), f"{texts}: {output}")
    return len(lines)


def main() -> None:
    pairs = int(arguments(__doc__, "pairs").pairs)
    some, lines = random.Random(1), 0
    with tempfile.TemporaryDirectory() as folder:
        registry = pathlib.Path(folder, "registry.json")
        registry.write_text(json.dumps(REGISTRY), encoding="utf-8")
        for _ in range(pairs):
            value = node(some, 3)
            lines += check(str(registry), [value, edited(some, value)], pathlib.Path(folder, "a.json"))
    passed(f"{pairs} pairs with {lines} differences")


if __name__ == "__main__":
    end_with(main)
