#!/usr/bin/env python3
"""Makes the inputs of the timings in a folder: inputs.py FOLDER. They are the same each time."""

from __future__ import annotations

import json
import random
import sys
from pathlib import Path
from typing import Any

REGISTRY = {
    "Kind": {
        "ENUM": {
            "0": {"Plain": "UNIT"},
            "1": {"Marked": {"NEWTYPE": "U32"}},
            "300": {"Placed": {"STRUCT": [{"x": "I64"}, {"y": "I64"}]}},
        }
    },
    "Record": {
        "STRUCT": [
            {"id": "U64"},
            {"owner": {"TUPLEARRAY": {"CONTENT": "U8", "SIZE": 32}}},
            {"name": "STR"},
            {"data": "BYTES"},
            {"kind": {"TYPENAME": "Kind"}},
            {"scores": {"SEQ": "U16"}},
            {"parent": {"OPTION": "U64"}},
        ]
    },
}
RECORDS = {"SEQ": {"TYPENAME": "Record"}}
NUMBERS = {"SEQ": "U32"}
MAP = {"MAP": {"KEY": "STR", "VALUE": "U64"}}


def record(chance: random.Random, number: int) -> dict[str, Any]:
    kind = chance.choice(
        [
            "Plain",
            {"Marked": chance.randrange(2**32)},
            {"Placed": {"x": str(chance.randrange(-(2**40), 2**40)), "y": str(-number)}},
        ]
    )
    return {
        "id": str(chance.randrange(2**64)),
        "owner": chance.randbytes(32).hex(),
        "name": f"record {number} " + "é" * chance.randrange(4),
        "data": chance.randbytes(chance.randrange(40)).hex(),
        "kind": kind,
        "scores": [chance.randrange(2**16) for _ in range(chance.randrange(6))],
        "parent": chance.choice([None, {"some": str(number)}]),
    }


def containers(chance: random.Random) -> dict[str, Any]:
    return {
        f"Container{number}": {
            "STRUCT": [
                {"first": "U64"},
                {"second": {"OPTION": {"TYPENAME": f"Container{chance.randrange(100_000)}"}}},
                {"third": {"MAP": {"KEY": "STR", "VALUE": {"SEQ": "BYTES"}}}},
            ]
        }
        for number in range(100_000)
    }


def write(folder: Path, name: str, value: Any) -> None:
    (folder / name).write_text(json.dumps(value, separators=(",", ":"), ensure_ascii=False))


def write_formats(folder: Path) -> None:
    write(folder, "registry.json", REGISTRY)
    formats = {"records": RECORDS, "numbers": NUMBERS, "map": MAP, "bytes": "BYTES", "number": "I16"}
    for name, format in formats.items():
        write(folder, f"{name}.format", format)


def main() -> None:
    folder = Path(sys.argv[1])
    folder.mkdir(parents=True, exist_ok=True)
    write_formats(folder)
    chance = random.Random(20261123)
    write(folder, "number.json", -4660)
    write(folder, "records.json", [record(chance, number) for number in range(150_000)])
    write(folder, "numbers.json", [chance.randrange(2**32) for _ in range(2_000_000)])
    write(folder, "bytes.json", chance.randbytes(20_000_000).hex())
    entries = [[f"key {number}", str(chance.randrange(2**64))] for number in range(300_000)]
    chance.shuffle(entries)
    write(folder, "map.json", entries)
    chance.shuffle(entries)
    write(folder, "map_again.json", entries)
    write(folder, "containers.json", containers(chance))
    # a length of 4,000,000, and that many options, every other one absent
    (folder / "options.bin").write_bytes(b"\x80\x92\xf4\x01" + b"\x00\x01\x07" * 2_000_000)


if __name__ == "__main__":
    main()
