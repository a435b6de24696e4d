"""What stands for a user's own types in the Python programs of docs/VECTORS.md: codec.py, for registry.json."""

from __future__ import annotations

import json
import pathlib
import sys
from typing import Any

import codec

sys.setrecursionlimit(100_000)
registry = json.loads(pathlib.Path("registry.json").read_text(encoding="utf-8"))


class Type:
    def __init__(self, name: str, value: Any = None) -> None:
        self.name, self.value = name, value

    def from_bytes(self, data: bytes) -> Type:
        try:
            return Type(self.name, codec.decode(registry, {"TYPENAME": self.name}, data))
        except codec.Refused as refusal:
            raise ValueError from refusal

    def from_json(self, value: Any) -> Type:
        return Type(self.name, value)

    def to_bytes(self) -> bytes:
        return codec.encode(registry, {"TYPENAME": self.name}, self.value)


types = {name: Type(name) for name in registry}
