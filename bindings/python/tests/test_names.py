"""Containers of Move's own types: which ones they are, and their values. In JSON they are like other containers."""

import copy
import pickle
import unittest
from typing import Any

from bcs_proved import Registry, TextError, ValueTypeError

OF_32_BYTES = {"NEWTYPESTRUCT": {"TUPLEARRAY": {"CONTENT": "U8", "SIZE": 32}}}
CONTAINERS: dict[str, Any] = {
    **{name: OF_32_BYTES for name in ["address", "Account", "u256", "i256", "Word"]},
    "Short": {"NEWTYPESTRUCT": {"TUPLEARRAY": {"CONTENT": "U8", "SIZE": 31}}},
    "Owner": {"NEWTYPESTRUCT": {"TYPENAME": "address"}},
    "Coin": {"STRUCT": [{"owner": {"TYPENAME": "Owner"}}, {"values": {"SEQ": {"TYPENAME": "u256"}}}]},
}
ONE, ONE_OF_MOVE = bytes(31) + b"\1", f"0x{1:064x}"
# The names that a registry is opened with, a container, a value, its bytes, and what `decode` returns.
# test_random.py has more of them.
VALUES: list[tuple[Any, Any, Any, bytes, Any]] = [
    (None, "address", bytearray(ONE), ONE, ONE_OF_MOVE),
    (None, "Owner", "0x1", ONE, ONE_OF_MOVE),
    (
        None,
        {"MAP": {"KEY": {"TYPENAME": "address"}, "VALUE": "U8"}},
        {"0x1": 7},
        b"\1" + ONE + b"\7",
        [[ONE_OF_MOVE, 7]],
    ),
    (None, "Account", ONE, ONE, ONE),
    ({"address": ["Account"]}, "Account", "0x1", ONE, ONE_OF_MOVE),
    ({"address": ["Account"]}, "address", ONE, ONE, ONE),
    ({"address": ["Account"]}, "u256", 1, b"\1" + bytes(31), 1),
    ({"address": ("address", "Account")}, "address", "0x1", ONE, ONE_OF_MOVE),
    ({"address": []}, "address", ONE, ONE, ONE),
    ({"u256": ["Word"]}, "Word", 1, b"\1" + bytes(31), 1),
    ({"i256": iter(["Word"])}, "Word", -1, b"\xff" * 32, -1),
]
# A container, what isn't a value of it, its error, and where it is. test_values.py has more.
WRONG: list[tuple[Any, Any, type[TextError], str, str]] = [
    ("address", "0x1\n", TextError, "BadHex", ""),
    ("address", "0x١", TextError, "BadHex", ""),
    ("address", "0x" + "z" * 1_000_000, TextError, "BadHex", ""),
    ("u256", 2**256, TextError, "BadNumber", ""),
    ("u256", 10**100_000, TextError, "BadNumber", ""),
    ("i256", 2**255, TextError, "BadNumber", ""),
    ("i256", -(2**255) - 1, TextError, "BadNumber", ""),
    ("Coin", {"owner": "0xg", "values": []}, TextError, "BadHex", "/owner"),
    ("Coin", {"owner": 7, "values": []}, ValueTypeError, "WrongType", "/owner"),
    ("Coin", {"owner": "0x1", "values": [1, 2**256]}, TextError, "BadNumber", "/values/1"),
    ({"MAP": {"KEY": {"TYPENAME": "address"}, "VALUE": "U8"}}, {"0x1": 7, "0x01": 7}, TextError, "RepeatedKey", ""),
]
# Names that are refused, and the words.
NO_NAMES: list[tuple[Any, type[Exception], str]] = [
    ({"addresses": ["Account"]}, ValueError, "names: the kinds are address, u256, i256, not 'addresses'"),
    ({"address": "Account"}, TypeError, "names: 'address' takes a list of names, not a str"),
    ({"address": ["None"]}, ValueError, "names: the registry has no newtype of 32 bytes called 'None'"),
    ({"address": ["Short"]}, ValueError, "names: the registry has no newtype of 32 bytes called 'Short'"),
    ({"address": ["Owner"]}, ValueError, "names: the registry has no newtype of 32 bytes called 'Owner'"),
    ({"address": ["Word"], "u256": ["Word"]}, ValueError, "names: 'Word' can't be both address and u256"),
    ({"u256": ["address"]}, ValueError, "names: 'address' can't be both address and u256"),
]


class Names(unittest.TestCase):
    def test_values(self) -> None:
        for names, format, value, data, found in VALUES:
            with self.subTest(names=names, format=format, value=value):
                registry = Registry(CONTAINERS, names=names)
                self.assertEqual(registry.encode(format, value), data)
                self.assertEqual(registry.decode(format, data), found)
                self.assertEqual(registry.encode(format, found), data)
                self.assertTrue(registry.equal(format, value, found))
                self.assertEqual(registry.normalise(format, value), found)

    def test_wrong_values(self) -> None:
        registry = Registry(CONTAINERS)
        for format, value, error, reason, at in WRONG:
            with self.subTest(format=format, value=str(value)[:100] if isinstance(value, str) else type(value)):
                with self.assertRaises(TextError) as raised:
                    registry.encode(format, value)
                fault = raised.exception
                self.assertEqual((type(fault), fault.reason, fault.at), (error, reason, at))
                self.assertLess(len(str(fault)), 250)

    def test_names(self) -> None:
        for names, error, words in NO_NAMES:
            with self.subTest(names=names), self.assertRaises(error) as raised:
                Registry(CONTAINERS, names=names)
            self.assertEqual(str(raised.exception), words)

    def test_names_of_others(self) -> None:
        """A container with a default name that isn't one of 32 bytes is as any other."""
        registry = Registry({"address": {"STRUCT": [{"street": "STR"}]}, "u256": {"NEWTYPESTRUCT": "BYTES"}})
        self.assertEqual(registry.decode("address", b"\1a"), {"street": "a"})
        self.assertEqual(registry.decode("u256", b"\1a"), b"a")

    def test_json(self) -> None:
        """It has no other forms."""
        registry = Registry(CONTAINERS)
        for format in ["address", "u256", "Owner"]:
            self.assertEqual(registry.decode_json(format, ONE), f'"{ONE.hex()}"')
            self.assertEqual(registry.encode_json(format, f'"{ONE.hex()}"'), ONE)
            for text in ['"0x1"', "1", f'"0x{ONE.hex()}"']:
                with self.assertRaises(TextError):
                    registry.encode_json(format, text)
        self.assertEqual(registry.example("address"), f"0x{0:064x}")

    def test_copies(self) -> None:
        registry = Registry(CONTAINERS, names={"address": ["Account"]})
        for other in [pickle.loads(pickle.dumps(registry)), copy.copy(registry), copy.deepcopy(registry)]:
            self.assertEqual(other.decode("Account", ONE), ONE_OF_MOVE)
            self.assertEqual(other.decode("address", ONE), ONE)


if __name__ == "__main__":
    unittest.main()
