"""Registries that are made from modules: what Python adds to the call. tests/rows/modules.py has the rest."""

import doctest
import json
import threading
import unittest
from typing import Any, Iterator

import bcs_proved
from bcs_proved import BcsError, Library, MadeRegistry, ModulesError, Registry, modules, registry_of_modules
from bcs_proved.library import standard_library

MODULE = json.dumps(
    {
        "address": "0x1",
        "name": "m",
        "structs": [
            {
                "name": "S",
                "is_native": False,
                "generic_type_params": [{}],
                "fields": [{"name": "a", "type": "vector<T0>"}],
            }
        ],
    }
)
MADE = MadeRegistry('{"0x1::m::S<u8>":{"STRUCT":[{"a":"BYTES"}]}}', "")


class OwnText(str):
    """A str whose class says something else about it."""

    def __str__(self) -> str:
        return "0x1::n::S"

    def __eq__(self, other: object) -> bool:
        return True

    __hash__ = str.__hash__


class Modules(unittest.TestCase):
    def test_what_modules_and_types_may_be(self) -> None:
        def generated() -> Iterator[str]:
            yield "0x1::m::S<u8>"

        for types in (
            ["0x1::m::S<u8>"],
            ("0x1::m::S<u8>",),
            {"0x1::m::S<u8>"},
            generated(),
            [OwnText("0x1::m::S<u8>")],
        ):
            self.assertEqual(registry_of_modules(MODULE, types), MADE)
        data = MODULE.encode()
        texts: list[Any] = [data, bytearray(data), memoryview(data), OwnText(MODULE)]
        for text in texts:
            self.assertEqual(registry_of_modules(text, ["0x1::m::S<u8>"]), MADE)
        for library in (None, standard_library().path, standard_library(), Library()):
            self.assertEqual(registry_of_modules(MODULE, ["0x1::m::S<u8>"], library), MADE)
        self.assertEqual(Registry(MADE.json).encode("0x1::m::S<u8>", {"a": b"\xc0\xde"}), b"\2\xc0\xde")

    def test_wrong_types(self) -> None:
        wrong: list[tuple[Any, Any, str]] = [
            (json.loads(MODULE), [], "a text is needed here, as a str or bytes, not dict"),
            ([], [], "a text is needed here, as a str or bytes, not list"),
            (None, [], "a text is needed here, as a str or bytes, not NoneType"),
            (7, [], "a text is needed here, as a str or bytes, not int"),
            (MODULE, "u8", "types are a list of str, not str"),
            (MODULE, b"u8", "types are a list of str, not bytes"),
            (
                MODULE,
                OwnText("u8"),
                "types are a list of str, not .*OwnText",
            ),
            (MODULE, [b"u8"], "a type is a str, not bytes"),
            (MODULE, ["u8", None], "a type is a str, not NoneType"),
            (MODULE, [["u8"]], "a type is a str, not list"),
            (MODULE, None, "not iterable"),
            (MODULE, 7, "not iterable"),
        ]
        for text, types, message in wrong:
            with self.assertRaisesRegex(TypeError, message):
                registry_of_modules(text, types)

    def test_types_that_no_line_can_have(self) -> None:
        for types, at, message in [
            ([""], "", '"" isn\'t a type'),
            (["u8", ""], "", '"" isn\'t a type'),
            (["u8\nu16"], "u8\nu16", "a type has no line feed"),
            (["u8\n"], "u8\n", "a type has no line feed"),
            (["\n"], "\n", "a type has no line feed"),
        ]:
            with self.assertRaises(ModulesError) as raised:
                registry_of_modules(MODULE, types)
            self.assertEqual(raised.exception.args, ("BadType", None, at, message))

    def test_refusals(self) -> None:
        rows: list[tuple[bcs_proved.Text, list[str], str, str, str]] = [
            (MODULE, ["0x1::n::S"], "MissingModule", "0x1::n::S", "add these modules: 0x1::n"),
            ("\ud800", ["u8"], "NotJson", "", "this isn't JSON"),
            (
                "modules.json",
                ["u8"],
                "NotJson",
                "",
                "line 1, column 1: text belongs in double quotes; a str is read as JSON",
            ),
            (MODULE, ["u8", "\ud800"], "BadType", "", "the types aren't UTF-8"),
        ]
        for text, types, reason, at, start in rows:
            with self.assertRaises(ModulesError) as raised:
                registry_of_modules(text, types)
            fault = raised.exception
            self.assertEqual((fault.kind, fault.reason, fault.place, fault.at), ("modules", reason, None, at))
            self.assertTrue(fault.message.startswith(start), fault.message)
            self.assertIsInstance(fault, BcsError)
            self.assertTrue(str(fault).startswith(f"refused: {reason}"))

    def test_threads(self) -> None:
        found: list[MadeRegistry] = []
        threads = [
            threading.Thread(target=lambda: found.append(registry_of_modules(MODULE, ["0x1::m::S<u8>"])))
            for _ in range(8)
        ]
        for thread in threads:
            thread.start()
        for thread in threads:
            thread.join()
        self.assertEqual(found, [MADE] * 8)

    def test_the_example(self) -> None:
        tested = doctest.testmod(modules)
        self.assertEqual((tested.failed, tested.attempted), (0, 4))
        self.assertIs(bcs_proved.registry_of_modules, modules.registry_of_modules)


if __name__ == "__main__":
    unittest.main()
