"""Values of Python's types as bytes. tests/rows/values/python.rows has each type at every format."""

import unittest
from typing import Any

import numpy
from samples import OtherList

from bcs_proved import Hex, Registry, TextError, ValueTypeError

PAY = Registry({"Pay": {"STRUCT": [{"to": "STR"}, {"amount": "U64"}, {"memo": {"OPTION": "BYTES"}}]}})


class Values(unittest.TestCase):
    def test_samples(self) -> None:
        for memo, data in [(None, "00"), (b"\7", "010107"), (Hex("07"), "010107"), ({"some": [7]}, "010107")]:
            for amount in [7, numpy.uint8(7)]:
                encoded = PAY.encode("Pay", {"amount": amount, "to": "bob", "memo": memo})
                self.assertEqual(encoded.hex(), f"03626f620700000000000000{data}")
        decoded = PAY.decode("Pay", bytes.fromhex("03626f620700000000000000010107"))
        self.assertEqual(decoded, {"to": "bob", "amount": 7, "memo": {"some": b"\7"}})
        with self.assertRaises(ValueTypeError) as raised:
            PAY.encode("Pay", {"to": "bob", "amount": 7.0})
        self.assertEqual((raised.exception.at, raised.exception.message), ("/amount", "U64 takes an int, not float"))

    def test_numbers_of_items(self) -> None:
        """No item is left out, and none is added."""
        pair = ["U8", "U8"]
        registry = Registry({"P": {"TUPLESTRUCT": pair}, "E": {"ENUM": {"0": {"A": {"TUPLE": pair}}}}})
        entries = {"MAP": {"KEY": "U8", "VALUE": "U8"}}
        for items in [[1, 2, 3], (1, 2, 3), [1], (), [1, 2, []], OtherList([1, 2, 3])]:
            cases: list[tuple[Any, Any, str]] = [
                ({"TUPLE": pair}, items, ""),
                ("P", items, ""),
                ("E", {"A": items}, "/A"),
                (entries, [(7, 8), items], "/1"),
            ]
            for format, value, at in cases:
                with self.assertRaises(TextError, msg=f"{value} at {format}") as raised:
                    registry.encode(format, value)
                self.assertEqual((raised.exception.reason, raised.exception.at), ("BadShape", at))


if __name__ == "__main__":
    unittest.main()
