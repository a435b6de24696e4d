"""Random values of random registries, in any of the types that a format accepts, there and back. Their bytes are made
by tests/rows/random_values.py."""

import array
import json
import pathlib
import sys
import unittest
from typing import Any, Callable

import numpy

from bcs_proved import Hex, Limits, Registry, TextError
from bcs_proved.values import _slow_json_of, json_of

sys.path.insert(0, str(pathlib.Path(__file__).resolve().parents[3] / "tests/rows"))
from random_values import OWN_FORMS, Draw, Value  # noqa: E402 (the folder has to be known first)

REGISTRIES = 4200
NUMPY = {"U8": "u1", "U16": "u2", "U32": "u4", "U64": "u8", "I8": "i1", "I16": ">i2", "I32": "i4", "I64": ">i8"}
ARRAYS = {"U16": "H", "U32": "I", "U64": "Q", "I16": "h", "I32": "i", "I64": "q"}
# The names that the registries are opened with.
NAMES = {"address": ["address", "Account"]}


def native_of(value: Value) -> Any:
    """The value as `decode` returns it."""
    parts = [native_of(part) for part in value.parts]
    if value.word == "address":
        return f"0x{value.held.hex()}"
    if value.word in ("list", "array", "tuple"):
        return parts
    if value.word == "some":
        return {"some": parts[0]}
    if value.word == "map":
        return [list(entry) for entry in zip(parts[::2], parts[1::2])]
    if value.word == "newtype":
        return parts[0]
    if value.word == "struct":
        return dict(zip(value.held, parts))
    if value.word == "variant":
        return {value.held[1]: parts[0]} if parts else value.held[1]
    return value.held


class Dressed:
    """The same value in other types."""

    def __init__(self, draw: Draw) -> None:
        self._draw = draw.random

    def of(self, value: Value) -> Any:
        parts = [self.of(part) for part in value.parts]
        if value.word in ("list", "array"):
            return self._list(value, parts)
        if value.word == "tuple":
            return self._sequence(parts)
        if value.word == "map":
            return self._map(value, parts)
        if value.word == "struct":
            named = list(zip(value.held, parts))
            return dict(self._draw.sample(named, len(named)))
        if value.word in ("some", "newtype"):
            return {"some": parts[0]} if value.word == "some" else parts[0]
        if value.word == "variant":
            name = value.held[1]
            return {name: parts[0]} if parts else self._draw.choice([name, {name: None}])
        return self._leaf(value)

    def _leaf(self, value: Value) -> Any:
        word, held = value.word, value.held
        if word == "address":
            number = int.from_bytes(held, "big")
            return self._draw.choice([hex(number), f"0x{number:064X}", held, Hex(held.hex())])
        if word in ("bytes", "octets", "octet-array"):
            return self._octets(held)
        if word == "text" and "\0" not in held:
            return self._draw.choice([held, numpy.str_(held)])
        if word in NUMPY:
            shapes: list[Callable[[int], Any]] = [int, int, numpy.dtype(NUMPY[word]).type]
            return self._draw.choice(shapes)(held)
        return held

    def _octets(self, data: bytes) -> Any:
        shapes: list[Callable[[bytes], Any]] = [
            bytes,
            bytearray,
            memoryview,
            list,
            tuple,
            lambda data: [numpy.uint8(octet) for octet in data],
            lambda data: Hex(data.hex()),
            lambda data: Hex(data.hex().upper()),
            lambda data: array.array("B", data),
            lambda data: numpy.frombuffer(data, "u1"),
        ]
        return self._draw.choice(shapes)(data)

    def _sequence(self, parts: list[Any]) -> Any:
        return self._draw.choice([list, tuple])(parts)

    def _list(self, value: Value, parts: list[Any]) -> Any:
        dressed, natives = [self._sequence(parts)], [part.held for part in value.parts]
        word = value.parts[0].word if value.parts else ""
        if word in NUMPY:
            dressed.append(numpy.array(natives, NUMPY[word]))
        if word in ARRAYS:
            dressed += [array.array(ARRAYS[word], natives), memoryview(array.array(ARRAYS[word], natives))]
        return self._draw.choice(dressed)

    def _map(self, value: Value, parts: list[Any]) -> Any:
        entries = list(zip(value.parts[::2], parts[::2], parts[1::2]))
        mixed = self._draw.sample(entries, len(entries))
        is_plain = all(key.word in ("true", "false", "text") or key.word[0] in "UI" for key, _, _ in mixed)
        if is_plain and self._draw.random() < 0.5:
            return {key.held: other for key, _, other in mixed}
        return self._sequence([self._sequence([one, other]) for _, one, other in mixed])


class There(unittest.TestCase):
    def test_and_back(self) -> None:
        done = 0
        for seed in range(REGISTRIES):
            draw = Draw(seed, {**OWN_FORMS, "Account": "address"})
            with Registry(draw.new_registry(), names=NAMES) as registry:
                for _ in range(12):
                    format = draw.any_format()
                    self.agrees(registry, format, draw.value(format), Dressed(draw))
                    done += 1
        self.assertEqual(done, REGISTRIES * 12)

    def agrees(self, registry: Registry, format: Any, value: Value, dresses: Dressed) -> None:
        native, dressed = native_of(value), dresses.of(value)
        said = f"{registry._text!r} {format}: {native!r}, {dressed!r}"
        format = format if isinstance(format, dict) else f'"{format}"'
        known = registry._formats.format(format if isinstance(format, dict) else json.loads(format))
        for each in (dressed, native):
            # (the two ways of converting a value write the same JSON)
            nodes = value.nodes * 100
            self.assertEqual(json_of(known, each, nodes), _slow_json_of(known, each, nodes), said)
            self.assertEqual(registry.encode(format, each), value.data, said)
        found = registry.decode(format, value.data)
        self.assertEqual(found, native, said)
        # (in their types, and with fields in the registry's order)
        self.assertEqual(repr(found), repr(native), said)
        self.assertEqual(registry.encode(format, registry.decode(format, value.data)), value.data, said)
        self.assertTrue(registry.equal(format, dressed, native), said)
        self.assertEqual(registry.encode(format, dressed, Limits(nodes=value.nodes)), value.data, said)
        with self.assertRaises(TextError, msg=said) as raised:
            registry.encode(format, dressed, Limits(nodes=value.nodes - 1))
        self.assertEqual((raised.exception.reason, raised.exception.at), ("TooManyNodes", ""), said)


if __name__ == "__main__":
    unittest.main()
