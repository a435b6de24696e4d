#!/usr/bin/env python3
"""check.py REGISTRY LINES [FOLDER]: prints `started`, the numbers of the lines that codec.py and json_reader.py get
wrong, and then `checked N`. FOLDER has other files of these names. Nothing here uses the proved library."""

from __future__ import annotations

import importlib
import json
import pathlib
import sys
from typing import Any


def is_right(codec: Any, json_reader: Any, registry: dict[str, Any], line: dict[str, Any]) -> bool:
    """Whether the codec accepts or refuses the line as it should, and makes its bytes and its JSON."""
    format = {"TYPENAME": line["format"]}

    def has_bytes(value: Any) -> bool:
        return bool(codec.encode(registry, format, value).hex() == line["bytes"])

    try:
        if "text" in line:
            value = json_reader.read(registry, format, line["text"])
        else:
            value = codec.decode(registry, format, bytes.fromhex(line["bytes"]))
    except codec.Refused:
        return "refused" in line
    if "refused" in line or not has_bytes(value):
        return False
    if "json" not in line:
        return True
    is_same = json.dumps(value, sort_keys=True) == json.dumps(line["json"], sort_keys=True)
    return is_same and has_bytes(json_reader.read(registry, format, json.dumps(line["json"])))


def main() -> None:
    sys.setrecursionlimit(100_000)
    if len(sys.argv) > 3:
        sys.path.insert(0, sys.argv[3])
    codec, json_reader = importlib.import_module("codec"), importlib.import_module("json_reader")
    registry = json.loads(pathlib.Path(sys.argv[1]).read_text(encoding="utf-8"))
    lines = pathlib.Path(sys.argv[2]).read_text(encoding="ascii").splitlines()
    print("started", flush=True)
    for number, line in enumerate(lines, 1):
        try:
            has_passed = is_right(codec, json_reader, registry, json.loads(line))
        except Exception:  # (whatever the codec does beside refusing is wrong)
            has_passed = False
        if not has_passed:
            print(number, flush=True)
    print(f"checked {len(lines)}")


if __name__ == "__main__":
    main()
