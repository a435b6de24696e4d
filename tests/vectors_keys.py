"""The part of tests/vectors.py with decoders that compare less of keys than they should. For each format of a key, its
lines alone have to show each of them."""

from __future__ import annotations

import json
import sys
import types
from typing import Any, NamedTuple

from harness import ROOT, Failed
from vectors_bugs import CODECS, Bug, planted

sys.path[:0] = [str(CODECS), str(ROOT / "bindings/python")]
import check  # noqa: E402 (the folders have to be known first)
import json_reader  # noqa: E402

from bcs_proved.vectors import lines as lines_of  # noqa: E402

# Formats of keys with the length of their longest keys, or None if that has no bound.
KEYS: dict[str, tuple[Any, int | None]] = {
    "U16": ("U16", 2),
    "I32": ("I32", 4),
    "U64": ("U64", 8),
    "U128": ("U128", 16),
    "STR": ("STR", None),
    "BYTES": ("BYTES", None),
    "address": ({"TYPENAME": "Address"}, 32),
    "id": ({"TYPENAME": "Id"}, 40),
    "tag": ({"TYPENAME": "Tag"}, None),
    "enum": ({"TYPENAME": "Enum"}, None),
    "tuple": ({"TUPLE": ["STR", "U8"]}, None),
    "option": ({"OPTION": "STR"}, None),
    "list": ({"SEQ": "U16"}, None),
    "map": ({"MAP": {"KEY": "U8", "VALUE": "STR"}}, None),
}
CONTAINERS: dict[str, Any] = {
    "Address": {"NEWTYPESTRUCT": {"TUPLEARRAY": {"CONTENT": "U8", "SIZE": 32}}},
    "Id": {"STRUCT": [{"address": {"TYPENAME": "Address"}}, {"number": "U64"}]},
    "Tag": {"STRUCT": [{"address": {"TYPENAME": "Address"}}, {"module": "STR"}, {"name": "STR"}]},
    "Enum": {
        "ENUM": {"0": {"None": "UNIT"}, "1": {"Id": {"NEWTYPE": {"TYPENAME": "Id"}}}, "2": {"Name": {"NEWTYPE": "STR"}}}
    },
}
LONG_LINE = 2000
COMPARED = "if last is not None and now <= last:"


class Part(NamedTuple):
    """What a decoder compares of a key, in Python, and how long a key has to be that has more."""

    text: str
    least: int


PARTS = [
    *(Part(f"[:{count}]", count + 1) for count in (1, 8, 16, 24, 32)),
    Part("[:-1]", 2),
    # words of 8 bytes, of which one is forgotten
    *(Part(f".ljust({end})[:{end - 8}] + {{0}}[{end}:]", end - 7) for end in (16, 24, 32)),
]


def codec_with(part: Part, sign: str) -> types.ModuleType:
    """The codec in Python, which compares this part of keys alone."""
    now, last = (name + part.text.format(name) for name in ("now", "last"))
    bug = Bug(part.text, [([COMPARED], [f"if last is not None and {now} {sign} {last}:"])])
    module = types.ModuleType("codec")
    exec(planted((CODECS / "codec.py").read_text(encoding="utf-8"), bug), module.__dict__)
    return module


def is_shown(codec: types.ModuleType, registry: dict[str, Any], lines: list[dict[str, Any]]) -> bool:
    for line in lines:
        try:
            if not check.is_right(codec, json_reader, registry, line):
                return True
        except Exception:  # (whatever the codec does beside refusing is wrong)
            return True
    return False


def require_all_shown() -> str:
    """Decoders to which keys with an equal part are in order, or are the same key."""
    codecs = [(part, sign, codec_with(part, sign)) for part in PARTS for sign in ("<", "<=")]
    count = 0
    for name, (key, longest) in KEYS.items():
        registry = {**CONTAINERS, "Map": {"NEWTYPESTRUCT": {"MAP": {"KEY": key, "VALUE": "U8"}}}}
        # (checking the longest maps would take most of the time)
        lines = [line for line in lines_of(json.dumps(registry), ["Map"]) if len(line.get("bytes", "")) < LONG_LINE]
        if is_shown(codec_with(Part("", 0), "<="), registry, lines):
            raise Failed(f"a line with a key of the format {name} rejects a decoder that compares whole keys")
        for part, sign, codec in codecs:
            if longest is None or part.least <= longest:
                count += 1
                if not is_shown(codec, registry, lines):
                    raise Failed(
                        f"no line shows a decoder that compares keys of the format {name} by {part.text} with {sign}"
                    )
    return f"{count} decoders that compare less of keys, in {len(KEYS)} formats"
