"""The functions that are made for structs that are used often convert like the code that is written out."""

import pathlib
import sys
import unittest
import unittest.mock
from typing import Any

from bcs_proved import Registry, ValueTypeError, generated, values
from test_random import NAMES, Dressed, native_of

sys.path.insert(0, str(pathlib.Path(__file__).resolve().parents[3] / "tests/rows"))
from random_values import OWN_FORMS, Draw  # noqa: E402 (the folder has to be known first)

REGISTRIES = 1700
HOSTILE_NAMES = ["{", "}", "'", '"', "\\", "{0}", "%s", "\n", "'+print()+'", "n0", "value", "é", "\0"]


def made(registry: Registry, name: str) -> Any:
    """The function of a struct, or None."""
    return registry._formats.format({"TYPENAME": name}).resolved().__dict__.get("quick")


@unittest.mock.patch.object(values, "_OFTEN", 0)
class Made(unittest.TestCase):
    def test_random_values(self) -> None:
        compared, functions = 0, 0
        make = generated.function_of

        def counted(*words: Any) -> Any:
            nonlocal functions
            functions += 1
            return make(*words)

        with unittest.mock.patch.object(values, "function_of", counted):
            for seed in range(REGISTRIES):
                draw = Draw(1_000_000 + seed, {**OWN_FORMS, "Account": "address"})
                with Registry(draw.new_registry(), names=NAMES) as registry:
                    for _ in range(12):
                        format = draw.any_format()
                        self.agrees(registry, format, draw.value(format), Dressed(draw))
                        compared += 1
        self.assertGreaterEqual(compared, 20_000)
        self.assertGreater(functions, 1000)

    def agrees(self, registry: Registry, format: Any, value: Any, dresses: Dressed) -> None:
        given: Any = format if isinstance(format, dict) else f'"{format}"'
        known, native, dressed = registry._formats.format(format), native_of(value), dresses.of(value)
        decoded = registry.decode(given, value.data)
        self.assertEqual(repr(decoded), repr(native))
        # (functions are made by the first of these, and used by the others)
        for each in (native, decoded, dressed, native, decoded):
            self.assertEqual(values.json_of(known, each, 1 << 20), values._slow_json_of(known, each, 1 << 20))
            self.assertEqual(registry.encode(given, each), value.data)

    def test_names_are_never_code(self) -> None:
        registry = Registry({"S": {"STRUCT": [{name: "U8"} for name in HOSTILE_NAMES]}})
        value = dict(zip(HOSTILE_NAMES, range(len(HOSTILE_NAMES))))
        for _ in range(3):
            self.assertEqual(registry.encode("S", value), bytes(range(len(HOSTILE_NAMES))))
            self.assertEqual(registry.encode("S", dict(reversed(value.items()))), bytes(range(len(HOSTILE_NAMES))))
        self.assertEqual(made(registry, "S").__code__.co_names.count("n0"), 1)

    def test_rejections(self) -> None:
        """They are those of the code that is written out, and come in its order."""
        fields = [{"a": "U8"}, {"b": "STR"}, {"c": {"TYPENAME": "address"}}, {"d": "BYTES"}, {"e": "BOOL"}]
        of_32 = {"NEWTYPESTRUCT": {"TUPLEARRAY": {"CONTENT": "U8", "SIZE": 32}}}
        registry = Registry({"S": {"STRUCT": fields}, "address": of_32})
        good: dict[str, Any] = {"a": 7, "b": "x", "c": "0x" + "0f" * 32, "d": b"d", "e": True}
        data = registry.encode("S", good)
        self.assertEqual(registry.encode("S", good), data)
        for name, wrong in [
            *(("a", bad) for bad in (True, None, "7", 7.0, b"7")),
            *(("b", bad) for bad in (7, b"x", None)),
            *(("c", bad) for bad in (7, None, [None])),
            *(("d", bad) for bad in ("64", 7, None)),
            *(("e", bad) for bad in (1, 0, None, "true")),
        ]:
            later: list[dict[str, Any]] = [{}, {"e": 5} if name != "e" else {}]
            for rest in later:
                with self.assertRaises(ValueTypeError) as raised:
                    registry.encode("S", {**good, name: wrong, **rest})
                self.assertEqual(raised.exception.at.split("/")[1], name)
        for digits in ("0x" + "0g" * 32, "0x" + " f" * 32, "0X" + "0f" * 32, "0x" + "é" * 64, "0x" + "_f" * 32):
            with self.assertRaisesRegex(Exception, "BadHex at /c: address takes 0x and 1 to 64 digits"):
                registry.encode("S", {**good, "c": digits})
        self.assertEqual(registry.encode("S", {**good, "c": b"\x0f" * 32}), data)
        self.assertEqual(registry.encode("S", {**good, "c": "0x" + "0F" * 32}), data)

    def test_names_of_other_types(self) -> None:
        """A name that only claims to be equal isn't one."""

        class Claims(str):
            def __eq__(self, other: object) -> bool:
                raise ZeroDivisionError

            __hash__ = str.__hash__

        registry = Registry({"S": {"STRUCT": [{"a": "U8"}]}})
        for _ in range(3):
            self.assertEqual(registry.encode("S", {"a": 7}), b"\7")
            self.assertEqual(registry.encode("S", {Claims("a"): 7}), b"\7")

    def test_where_none_is_made(self) -> None:
        """Structs with many fields, and interpreters that make no functions."""
        many = {f"f{number}": number % 256 for number in range(500)}
        registry = Registry(
            {"S": {"STRUCT": [{name: "U8"} for name in many]}, "E": {"STRUCT": []}, "O": {"STRUCT": [{"a": "U8"}]}}
        )
        with unittest.mock.patch.object(values, "function_of", side_effect=RuntimeError):
            for _ in range(3):
                self.assertEqual(registry.encode("S", many), bytes(many.values()))
                self.assertEqual(registry.encode("E", {}), b"")
                self.assertEqual(registry.encode("O", {"a": 7}), b"\7")
        self.assertEqual(made(registry, "S").__name__, "_generic_quick")


if __name__ == "__main__":
    unittest.main()
