"""What the methods of bcs_proved accept as texts, bytes and limits. What they answer are rows of tests/rows."""

import array
import ctypes
import decimal
import inspect
import json
import sys
import unittest
from typing import Any

from bcs_proved import (
    Format,
    FormatError,
    Limits,
    LimitsError,
    PathError,
    Registry,
    RegistryError,
    StackError,
    TextError,
)

PAYMENT = {"Payment": {"STRUCT": [{"to": "STR"}, {"amount": "U64"}]}}


class Text(str):
    """A str of another class."""


class Accepted(unittest.TestCase):
    def setUp(self) -> None:
        self.registry = Registry(PAYMENT)
        self.bytes = bytes.fromhex("03626f620700000000000000")

    def test_formats(self) -> None:
        formats: list[Format] = [
            "Payment",
            '{"TYPENAME":"Payment"}',
            b'{"TYPENAME":"Payment"}',
            {"TYPENAME": "Payment"},
        ]
        for format in formats:
            self.registry.check(format)
            self.assertEqual(self.registry.scan(format, self.bytes), 12)

    def test_texts_count_by_value(self) -> None:
        """A str of a class of its own, which equals others or has another `encode`, is its text."""

        class Caseless(str):
            def __eq__(self, other: object) -> bool:
                return isinstance(other, str) and self.lower() == other.lower()

            def __hash__(self) -> int:
                return hash(self.lower())

            def encode(self, *_: Any) -> bytes:
                return b"9"

        registry = Registry({"Coin": {"NEWTYPESTRUCT": "U8"}, "coin": {"NEWTYPESTRUCT": "U64"}})
        for name in ["Coin", "coin"]:
            self.assertEqual(registry.encode(Caseless(name), 1), registry.encode(name, 1))
        self.assertEqual(registry.encode_json("Coin", Caseless("7")), b"\7")

    def test_registries(self) -> None:
        one = '{"E":{"ENUM":{"0":{"A":"UNIT"}}}}'
        texts: list[Any] = [one, one.encode(), json.loads(one), {"E": {"ENUM": {0: {"A": "UNIT"}}}}]
        for text in texts:
            self.assertEqual(Registry(text).encode("E", "A"), b"\0")

    def test_bytes(self) -> None:
        for data in [b"", b"\xc0\xde", bytearray(b"\xc0\xde"), memoryview(b"\0")]:
            encoded = self.registry.encode('"BYTES"', data)
            self.assertEqual(encoded, bytes([len(data)]) + bytes(data))
            self.assertEqual(self.registry.decode('"BYTES"', memoryview(encoded)), bytes(data))


class Refused(unittest.TestCase):
    def setUp(self) -> None:
        self.registry = Registry(PAYMENT)

    def test_lone_surrogates(self) -> None:
        """A str that isn't Unicode is refused by the library, like bytes that aren't UTF-8."""
        with self.assertRaisesRegex(RegistryError, "NotJson"):
            Registry("\udc80")
        for find in (self.registry.part, self.registry.part_by_name, self.registry.part_by_pointer):
            with self.assertRaisesRegex(PathError, "BadPath"):
                find('"U8"', b"\x07", "/\ud800")

    def test_lone_surrogates_in_values(self) -> None:
        """The place is that of the string."""
        strings = '{"SEQ":{"OPTION":"STR"}}'
        for value in ("\ud800", "a\udfff", "\ud83d\ude00", "é" * 1000 + "\udbff"):
            for wrong in (value, Text(value)):
                with self.assertRaises(TextError) as raised:
                    self.registry.encode(strings, [None, {"some": "\U0001f600"}, {"some": wrong}])
                message = "STR takes Unicode, and this str has half of a surrogate pair"
                self.assertEqual(
                    (raised.exception.reason, raised.exception.at, raised.exception.message),
                    ("NotJson", "/2/some", message),
                )
        self.assertEqual(self.registry.encode('"STR"', "\U0001f600").hex(), "04f09f9880")

    def test_little_stack(self) -> None:
        """Python ends deep calls itself, long before the stack ends."""
        registry = Registry({"L": {"STRUCT": [{"next": {"OPTION": {"TYPENAME": "L"}}}]}})
        value: dict[str, Any] = {"next": None}
        for _ in range(48):
            value = {"next": {"some": value}}
        data = registry.encode("L", value)

        def decoded(frames: int) -> Any:
            return registry.decode("L", data) if frames == 0 else decoded(frames - 1)

        limit = sys.getrecursionlimit()
        self.assertEqual(decoded(0), value)
        with self.assertRaises(StackError):
            decoded(limit - len(inspect.stack()) - 60)
        self.assertEqual(decoded(0), value)

    def test_types_in_registries(self) -> None:
        """`json` would make names of `True` and `None`, and text of bytes."""
        registries: list[tuple[Any, str]] = [
            ({True: "UNITSTRUCT"}, "names in a registry or format are str, not bool"),
            ({None: "UNITSTRUCT"}, "names in a registry or format are str, not NoneType"),
            ({1.0: "UNITSTRUCT"}, "names in a registry or format are str, not float"),
            ({b"A": "UNITSTRUCT"}, "names in a registry or format are str, not bytes"),
            ({"A": b"UNITSTRUCT"}, "a registry or format has dicts, lists, str and int, and no bytes"),
            (
                {"A": {"NEWTYPESTRUCT": {"SEQ": b"U8"}}},
                "a registry or format has dicts, lists, str and int, and no bytes",
            ),
            ({"A": {"TUPLESTRUCT": {"U8"}}}, "a registry or format has dicts, lists, str and int, and no set"),
            ({"A": {"ENUM": {0: {"A": "UNIT"}, "0": {"B": "UNIT"}}}}, "two names of a registry or format are equal"),
        ]
        for registry, words in registries:
            with self.assertRaises(TypeError) as raised:
                Registry(registry)
            self.assertEqual(str(raised.exception), words)
            with self.assertRaises(TypeError):
                self.registry.encode(registry, 7)

    def test_formats(self) -> None:
        formats: list[tuple[Format, str]] = [
            ("U8", "UnknownName"),
            ('"u8"', "BadShape"),
            ('"U8', "NotJson"),
            (b"U8", "NotJson"),
            ({"SEQ": 7}, "BadShape"),
        ]
        for format, reason in formats:
            with self.assertRaises(FormatError) as raised:
                self.registry.check(format)
            self.assertEqual((raised.exception.reason, raised.exception.place), (reason, None))

    def test_what_is_no_text_and_no_bytes(self) -> None:
        """Python makes five zeros of `bytes(5)`."""
        words: list[Any] = [
            5,
            None,
            [1],
            array.array("H", [7]),
            ctypes.c_uint64(7),
            memoryview(b"\1\2\3\4").cast("B", [2, 2]),
        ]
        for word in words:
            calls: list[Any] = [
                self.registry.decode,
                self.registry.scan,
                self.registry.explain,
                self.registry.encode_json,
            ]
            for call in calls:
                with self.assertRaises(TypeError):
                    call('"BYTES"', word)
            with self.assertRaises(TypeError):
                self.registry.check(word)
            with self.assertRaises(TypeError):
                Registry(word)
        with self.assertRaises(TypeError):
            self.registry.decode('"BYTES"', "00")  # type: ignore[call-overload]

    def test_limits(self) -> None:
        for depth, nodes in [(501, 1), (-1, 1), (1, -1), (1, 2**32)]:
            with self.assertRaises(ValueError) as raised:
                Limits(depth, nodes)
            assert isinstance(raised.exception, LimitsError)
            self.assertEqual((raised.exception.kind, raised.exception.reason, raised.exception.at), ("limits", "", ""))
            self.assertRegex(str(raised.exception), "^refused: a (depth|number of nodes) is from 0 to [0-9]+, not ")
        for number in [1.5, 1e6, "5", decimal.Decimal(5)]:
            with self.assertRaises(TypeError):
                Limits(depth=number)  # type: ignore[arg-type]
            with self.assertRaises(TypeError):
                Limits(nodes=number)  # type: ignore[arg-type]


if __name__ == "__main__":
    unittest.main()
