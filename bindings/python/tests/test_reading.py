"""Registries from files, their copies, documents on them, the beginning of longer bytes, and options without
{"some": ..}."""

import copy
import multiprocessing
import os
import pathlib
import pickle
import re
import tempfile
import unittest
from typing import Any

import bcs_proved
from bcs_proved import BytesError, FormatError, Limits, Name, PlainName, Registry, RegistryError

ROOT = pathlib.Path(__file__).resolve().parents[3]
FILE = ROOT / "examples/aptos_registry.json"
HINT = "; a str is read as JSON; for the name of a file, use Registry.from_file(..)"
UNITS = {"SEQ": "UNIT"}
# A format of an option, an option's value, what `plain_options` makes of it, and its bytes.
OPTIONS: list[tuple[Any, Any, Any, str]] = [
    ({"OPTION": "U64"}, {"some": 7}, 7, "010700000000000000"),
    ({"OPTION": "BOOL"}, {"some": False}, False, "0100"),
    ({"OPTION": "BYTES"}, {"some": b""}, b"", "0100"),
    ({"OPTION": {"SEQ": "U8"}}, {"some": b"\1"}, b"\1", "010101"),
    ({"OPTION": {"SEQ": {"OPTION": "U8"}}}, {"some": [None, {"some": 5}]}, [None, 5], "0102000105"),
    ({"OPTION": {"TUPLE": ["U8", "UNIT"]}}, {"some": [5, None]}, [5, None], "0105"),
    ({"OPTION": "STR"}, None, None, "00"),
    ({"OPTION": "UNIT"}, {"some": None}, {"some": None}, "01"),
    ({"OPTION": {"OPTION": "U8"}}, {"some": None}, {"some": None}, "0100"),
    ({"OPTION": {"OPTION": "U8"}}, {"some": {"some": 5}}, {"some": 5}, "010105"),
    ({"OPTION": {"MAP": {"KEY": "U8", "VALUE": "U8"}}}, {"some": []}, {"some": []}, "0100"),
    ({"OPTION": {"TYPENAME": "Maybe"}}, {"some": None}, {"some": None}, "0100"),
    ({"OPTION": {"TYPENAME": "Some"}}, {"some": {"some": 5}}, {"some": {"some": 5}}, "0105"),
    ({"OPTION": {"TYPENAME": "Two"}}, {"some": {"some": 5, "x": 6}}, {"some": 5, "x": 6}, "010506"),
    ({"OPTION": {"TYPENAME": "Tagged"}}, {"some": {"some": 5}}, {"some": {"some": 5}}, "010105"),
    ({"OPTION": {"TYPENAME": "Shape"}}, {"some": "Dot"}, "Dot", "0100"),
    ({"OPTION": {"TYPENAME": "Shape"}}, {"some": {"Circle": 5}}, {"Circle": 5}, "010105"),
    ({"OPTION": {"TYPENAME": "Unit"}}, {"some": None}, {"some": None}, "01"),
]
CONTAINERS = {
    "Unit": "UNITSTRUCT",
    "Maybe": {"NEWTYPESTRUCT": {"OPTION": "U8"}},
    "Some": {"STRUCT": [{"some": "U8"}]},
    "Two": {"STRUCT": [{"some": "U8"}, {"x": "U8"}]},
    "Tagged": {"ENUM": {"0": {"a": "UNIT"}, "1": {"some": {"NEWTYPE": "U8"}}}},
    "Shape": {"ENUM": {"0": {"Dot": "UNIT"}, "1": {"Circle": {"NEWTYPE": "U8"}}}},
}
RING = Registry({"Shape": {"ENUM": {"0": {"Dot": "UNIT"}, "1": {"Ring": {"NEWTYPE": {"OPTION": "U64"}}}}}})


class Files(unittest.TestCase):
    def test_version(self) -> None:
        told = (ROOT / "bindings/python/pyproject.toml").read_text(encoding="utf-8")
        found = re.search(r'^version = "(.*)"$', told, flags=re.MULTILINE)
        self.assertTrue(found and bcs_proved.__version__ == found[1])

    def test_file(self) -> None:
        names = Registry(FILE.read_bytes()).names
        self.assertEqual(Registry.from_file(FILE).names, names)
        self.assertEqual(Registry.from_file(str(FILE)).names, names)
        with self.assertRaises(FileNotFoundError):
            Registry.from_file("no.json")
        with self.assertRaises(IsADirectoryError):
            Registry.from_file(os.path.dirname(FILE))

    def test_damaged_file(self) -> None:
        with tempfile.TemporaryDirectory() as room:
            path = pathlib.Path(room) / "registry.json"
            path.write_text("S: UNITSTRUCT", encoding="utf-8")
            with self.assertRaises(RegistryError) as raised:
                Registry.from_file(path)
        self.assertNotIn(HINT, str(raised.exception))

    def test_hint(self) -> None:
        for text in [str(FILE), "registry.json", "/etc/passwd", "a\nb"]:
            with self.assertRaises(RegistryError) as raised:
                Registry(text)
            self.assertTrue(str(raised.exception).endswith(HINT), raised.exception)
            self.assertEqual(raised.exception.reason, "NotJson")
        others: list[Any] = ["", "{", "  {", b"registry.json", '{"A":7}']
        for other in others:
            with self.assertRaises(RegistryError) as raised:
                Registry(other)
            self.assertNotIn(HINT, str(raised.exception))


def encoded(registry: Registry) -> bytes:
    return registry.encode("Two", {"some": 1, "x": 2})


class Copies(unittest.TestCase):
    def test_names(self) -> None:
        self.assertEqual(Registry(CONTAINERS).names, list(CONTAINERS))
        self.assertEqual(repr(Registry(CONTAINERS)), "<bcs_proved.Registry of 6 containers>")
        self.assertEqual(repr(Registry({"A": "UNITSTRUCT"})), "<bcs_proved.Registry of 1 container>")

    def test_copies(self) -> None:
        registry = Registry(CONTAINERS)
        for other in [pickle.loads(pickle.dumps(registry)), copy.copy(registry), copy.deepcopy(registry)]:
            self.assertEqual(encoded(other), encoded(registry))
            other.close()
        self.assertEqual(encoded(registry), b"\1\2")

    def test_other_processes(self) -> None:
        registry = Registry(CONTAINERS)
        with multiprocessing.get_context("spawn").Pool(2) as pool:
            self.assertEqual(pool.map(encoded, [registry] * 4), [encoded(registry)] * 4)


class Documents(unittest.TestCase):
    def test_example(self) -> None:
        self.assertEqual(RING.example("Shape", variant="Ring", full=True), {"Ring": {"some": 0}})
        self.assertEqual(RING.example("Shape", variant="Ring", full=True, plain_options=True), {"Ring": 0})

    def test_show(self) -> None:
        for name in ["shape", "Shape\0", "\ud800", "é", "Shape "]:
            with self.assertRaises(FormatError) as raised:
                RING.show(name)
            self.assertEqual(raised.exception.args, ("UnknownName", None, "", f"no container is called {name}"))


class Prefix(unittest.TestCase):
    def setUp(self) -> None:
        self.registry = Registry(CONTAINERS)

    def test_what_follows_is_not_read(self) -> None:
        for rest in [b"", b"\0", b"\xff" * 100]:
            self.assertEqual(self.registry.decode_prefix('"U16"', b"\1\2" + rest), (513, 2))
            self.assertEqual(self.registry.decode_prefix('"U64"', b"\7" + bytes(7) + rest), (7, 8))
            self.assertEqual(self.registry.decode_prefix('"UNIT"', rest), (None, 0))
        self.assertEqual(self.registry.decode_prefix({"OPTION": "U8"}, b"\1\5x", plain_options=True), (5, 2))

    def test_refusals(self) -> None:
        with self.assertRaises(BytesError) as raised:
            self.registry.decode_prefix('"U16"', b"\1")
        self.assertEqual((raised.exception.reason, raised.exception.place), ("EndOfInput", 1))
        with self.assertRaises(FormatError):
            self.registry.decode_prefix("None", b"\1")
        with self.assertRaises(TypeError):
            self.registry.decode_prefix('"U8"', "01")  # type: ignore[call-overload]

    def test_limits(self) -> None:
        """The default limit is that of all bytes, and one that is set is used as it is."""
        with self.assertRaises(BytesError) as raised:
            self.registry.decode_prefix(UNITS, b"\xff\xff\xff\xff\7")
        self.assertEqual(raised.exception.reason, "TooManyNodes")
        with self.assertRaises(BytesError):
            self.registry.decode_prefix(UNITS, b"\3", Limits(nodes=3))
        self.assertEqual(self.registry.decode_prefix(UNITS, b"\3", Limits(nodes=4)), ([None] * 3, 1))


class Options(unittest.TestCase):
    def test_both_ways(self) -> None:
        registry = Registry(CONTAINERS)
        for format, exact, plain, digits in OPTIONS:
            with self.subTest(format=format, value=exact):
                data = bytes.fromhex(digits)
                self.assertEqual(registry.encode(format, exact), data)
                self.assertEqual(registry.encode(format, plain), data)
                self.assertEqual(registry.decode(format, data), exact)
                self.assertEqual(registry.decode(format, data, plain_options=True), plain)

    def test_names(self) -> None:
        registry = Registry(CONTAINERS)
        two: Name[Any] = Name("Two")
        self.assertEqual(registry.decode(two, b"\1\2"), {"some": 1, "x": 2})
        self.assertEqual(registry.encode(PlainName[Any]("Two"), {"some": 1, "x": 2}), b"\1\2")
        self.assertEqual(repr(two), "bcs_proved.Name('Two')")
        for name in ['"U8"', "{", ""]:
            with self.assertRaises(FormatError):
                registry.check(Name(name))


if __name__ == "__main__":
    unittest.main()
