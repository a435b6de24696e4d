"""Where values are refused, and what Python's errors say. The rest are rows of tests/rows/places.py."""

import pickle
import unittest
from typing import Any

from bcs_proved import (
    BcsError,
    BytesError,
    ExampleError,
    FormatError,
    GrowthError,
    Hex,
    LimitsError,
    PathError,
    Registry,
    RegistryError,
    StackError,
    TextError,
    ValueTypeError,
)

REFUSALS: list[type[BcsError]] = [
    *[RegistryError, FormatError, LimitsError, TextError, ValueTypeError, BytesError, PathError, GrowthError],
    *[ExampleError, StackError],
]
# The words that all languages have. A newer registry is refused when it is opened, as "registry".
KINDS = ["registry", "growth", "format", "limits", "text", "bytes", "path", "example", "value", "stack"]

BAD_BOOL = "expected BOOL, 00 or 01, found 02"

SHAPES = {
    "Point": {"STRUCT": [{"x": "U8"}, {"~/": {"SEQ": "BYTES"}}]},
    "Shape": {"ENUM": {"0": {"Dot": "UNIT"}, "2": {"Circle": {"NEWTYPE": "U64"}}}},
}


class Places(unittest.TestCase):
    def setUp(self) -> None:
        self.registry = Registry(SHAPES)

    def tells(self, error: type[BcsError], at: str, message: str, call: Any, *words: Any) -> BcsError:
        with self.assertRaises(error) as raised:
            call(*words)
        self.assertEqual((raised.exception.at, raised.exception.message), (at, message))
        return raised.exception

    def test_texts(self) -> None:
        of_u64 = "expected an integer from 0 to 18446744073709551615 (U64)"
        for format, value, at, message in [
            ("Point", {"x": 1, "~/": [b"", Hex("0")]}, "/~0~1/1", "an odd number of digits; each byte has two"),
            ("Point", {"x": 256, "~/": []}, "/x", "found 256, expected an integer from 0 to 255 (U8)"),
            ("Point", {"x": 1}, "", "no member is called ~/"),
            ("Shape", {"Circle": -1}, "/Circle", f"found -1, {of_u64}"),
            ("Shape", "Disc", "", "no variant is called Disc; variants: Dot, Circle"),
            ({"MAP": {"KEY": "U8", "VALUE": "U8"}}, [[1, 2], [1, 3]], "", "two keys of a map are equal"),
        ]:
            refused = self.tells(TextError, at, message, self.registry.encode, format, value)
            self.assertIn(message, str(refused))
            self.tells(TextError, at, message, self.registry.normalise, format, value)
        types = "BYTES takes bytes, or Hex(…) for digits, not int"
        self.tells(ValueTypeError, "/~0~1/1", types, self.registry.encode, "Point", {"x": 1, "~/": [b"", 7]})
        with self.assertRaises(TypeError):
            Hex(b"cafe")  # type: ignore[arg-type]

    def test_two_texts(self) -> None:
        good, bad = {"x": 1, "~/": []}, {"x": 256, "~/": []}
        expected = "found 256, expected an integer from 0 to 255 (U8)"
        self.tells(TextError, "/x", expected, self.registry.equal, "Point", good, bad)
        self.tells(TextError, "/x", expected, self.registry.equal, "Point", bad, {})

    def test_hints(self) -> None:
        """A format without parts isn't a container's name."""
        for word in ["U64", "BYTES", "F32"]:
            hint = f'; the format {word} is JSON, "{word}" with its quotes'
            self.tells(FormatError, "", f"no container is called {word}{hint}", self.registry.encode, word, 5)
        self.tells(FormatError, "", "no container is called Payment", self.registry.encode, "Payment", 5)

    def test_kinds(self) -> None:
        """Each class of refusals has a kind of its own, and is pickled with all that it says."""
        kinds = [error.kind for error in REFUSALS]
        self.assertEqual(sorted(kinds), sorted(KINDS))
        for error in REFUSALS:
            fault = error("BadBool", 7, ".a", "expected BOOL, 00 or 01, found 02")
            again = pickle.loads(pickle.dumps(fault))
            self.assertEqual((type(again), again.args, str(again)), (error, fault.args, str(fault)))
        for fault, line in [
            (BytesError("BadBool", 7, ".a", BAD_BOOL), f"refused: BadBool at byte 7, .a: {BAD_BOOL}"),
            (BytesError("BadBool", 0), "refused: BadBool at byte 0"),
            (TextError("BadNumber", None, "/a", "found 7"), "refused: BadNumber at /a: found 7"),
            (
                TextError("MissingField", message="no member is called a"),
                "refused: MissingField: no member is called a",
            ),
            (StackError("", message="too little stack"), "refused: too little stack"),
        ]:
            self.assertEqual(str(fault), line)


if __name__ == "__main__":
    unittest.main()
