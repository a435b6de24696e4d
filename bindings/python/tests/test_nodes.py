"""How many nodes a byte of a value can stand for, which the default limit of the methods that read bytes rests on."""

import json
import math
import pathlib
import unittest
from typing import Any

EXAMPLES = pathlib.Path(__file__).resolve().parents[3] / "examples"


class Excess:
    """For each container the most that a value's nodes can have above so many for each of its bytes: infinite if longer
    values have more, and negative infinity if there is no value."""

    def __init__(self, containers: dict[str, Any], nodes_each: int) -> None:
        self._each = nodes_each
        self.of = {name: -math.inf for name in containers}
        # a value that holds others of all containers within one another
        for _ in range(2 * len(containers) + 2):
            before = self.of
            self.of = {name: self._container(held) for name, held in containers.items()}
            if self.of == before:
                return
        self.of = {name: math.inf for name in containers}

    def _format(self, format: Any) -> float:
        if isinstance(format, str):
            return self._leaf(format)
        ((kind, inner),) = format.items()
        if kind == "TYPENAME":
            return self.of[inner]
        if kind == "OPTION":
            return 1 - self._each + max(0, self._format(inner))
        if kind == "TUPLE":
            return 1 + sum(map(self._format, inner))
        if kind == "TUPLEARRAY":
            size: int = inner["SIZE"]
            return 1 + (size * self._format(inner["CONTENT"]) if size else 0)
        parts = [inner["KEY"], inner["VALUE"]] if kind == "MAP" else [inner]
        return math.inf if sum(map(self._format, parts)) > 0 else 1 - self._each

    def _leaf(self, word: str) -> float:
        if word in ("CHAR", "F32", "F64"):
            return -math.inf
        fewest_bytes = {"UNIT": 0, "BOOL": 1, "STR": 1, "BYTES": 1}
        return 1 - self._each * (fewest_bytes[word] if word in fewest_bytes else int(word[1:]) // 8)

    def _container(self, held: Any) -> float:
        if held == "UNITSTRUCT":
            return 2
        ((kind, inner),) = held.items()
        if kind == "ENUM":
            payloads = [payload for variant in inner.values() for payload in variant.values()]
            return max((2 - self._each + self._payload(payload) for payload in payloads), default=-math.inf)
        return 1 + self._payload({kind.replace("STRUCT", "") or "STRUCT": inner})

    def _payload(self, payload: Any) -> float:
        if payload == "UNIT":
            return 1
        ((kind, inner),) = payload.items()
        if kind == "NEWTYPE":
            return self._format(inner)
        formats = inner if kind == "TUPLE" else [format for field in inner for format in field.values()]
        return 1 + sum(map(self._format, formats))


class Nodes(unittest.TestCase):
    def test_the_registries_of_chains(self) -> None:
        """Three nodes are a unit variant's byte, and no value has more for each of its bytes."""
        for name in ["aptos", "sui"]:
            containers = json.loads((EXAMPLES / f"{name}_registry.json").read_text(encoding="utf-8"))
            self.assertEqual(max(Excess(containers, 3).of.values()), 0)
            self.assertEqual(max(Excess(containers, 2).of.values()), math.inf)

    def test_what_has_no_bytes(self) -> None:
        self.assertEqual(Excess({"A": {"NEWTYPESTRUCT": {"SEQ": "UNIT"}}}, 1000).of, {"A": math.inf})
        self.assertEqual(Excess({"A": {"TUPLESTRUCT": ["U8", "UNIT", "UNIT", "UNIT"]}}, 3).of, {"A": 3})
        endless = {"A": {"NEWTYPESTRUCT": {"OPTION": {"TYPENAME": "A"}}}}
        self.assertEqual([Excess(endless, each).of for each in (1, 2, 3)], [{"A": math.inf}, {"A": 0}, {"A": -1}])


if __name__ == "__main__":
    unittest.main()
