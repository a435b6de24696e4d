"""The content of byte strings, and what `explain` shows inside them: what Python adds to the calls."""

import json
import pathlib
import unittest
from typing import Any

from bcs_proved import FormatError, PathError, Registry

ADDRESS = {"NEWTYPESTRUCT": {"TUPLEARRAY": {"CONTENT": "U8", "SIZE": 32}}}
REGISTRY = Registry(
    {
        "P": {"STRUCT": [{"a": "U8"}, {"b": "BYTES"}]},
        "address": ADDRESS,
        "Account": ADDRESS,
        "F": {"STRUCT": [{"arg0": "U8"}, {"arg1": "BOOL"}]},
        "F::arg0": {"NEWTYPESTRUCT": "U8"},
        "F::arg1": {"NEWTYPESTRUCT": "BOOL"},
    }
)
LIST = '{"SEQ":"BYTES"}'
ONE, DATA = b"\x07\x02ab", b"\x01\x04\x07\x02ab"


def names(**views: Any) -> list[Any]:
    return [piece.get("name", piece) for piece in REGISTRY.explain(LIST, DATA, **views)]


class Contents(unittest.TestCase):
    def test_refused(self) -> None:
        none = "only a BYTES, a STR, and a list or an array of U8 have a content"
        for call, name in [
            (REGISTRY.content, "inner/0"),
            (REGISTRY.content_by_name, ".a"),
            (REGISTRY.content_by_pointer, "/a"),
        ]:
            with self.assertRaises(PathError) as raised:
                call("P", ONE, name)
            self.assertEqual(raised.exception.args, ("NoContent", None, name, none))


class Inside(unittest.TestCase):
    def test_formats(self) -> None:
        """Each way to name a format, and a Mapping."""
        opened = [".", "[0]", "[0][bcs].a", "[0][bcs].b", "[0][bcs].b", {"end": 6}]
        for format in ["P", '{"TYPENAME":"P"}', {"TYPENAME": "P"}, b'{"TYPENAME":"P"}']:
            self.assertEqual(names(inside={"[0]": format}), opened)
        self.assertEqual(names(inside={"[*]": "P"}), opened)
        within = [*opened[:3], "[0][bcs].b", "[0][bcs].b[bcs][0]", "[0][bcs].b[bcs][1]", {"end": 6}]
        self.assertEqual(names(inside={"[0]": "P", "[0][bcs].b": {"TUPLE": ["U8", "U8"]}}), within)
        self.assertEqual(names(), [".", "[0]", "[0]", {"end": 6}])
        self.assertEqual(names(inside={}, calls={}, addresses=[], u256s=(), i256s=set()), names())
        self.assertEqual(names(inside={"[7]": "P"}), [".", "[0]", "[0]", "[7]", {"end": 6}])

    def test_calls(self) -> None:
        """The rows of tests/rows/explain_views.rows have more."""
        note = {"name": ".", "note": "no list there"}
        self.assertIn(note, REGISTRY.explain('"U8"', b"\x07", calls={".": "F"}))
        text = REGISTRY.explain_text('"U8"', b"\x07", calls={".": "F"})
        self.assertTrue(text.endswith("\nnote: at --call, .: no list there\n"))
        table = pathlib.Path(__file__).parents[3] / "tests/rows/explain_views.json"
        rows = json.loads(table.read_text(encoding="utf-8"))
        data = bytes.fromhex("baba016d036f6e6500010107")
        end = Registry(rows).explain("Aptos", data, calls={".args": "0x1::m::one"})[-1]
        want = "arguments of 0x1::m::one, found a call of 0xbaba::m::one"
        self.assertEqual((end["refused"], end["place"], end["want"]), ("OtherFunction", 9, want))

    def test_values_of_move(self) -> None:
        def shown(format: str, **views: Any) -> tuple[str, str]:
            piece = REGISTRY.explain(format, b"\x01" + bytes(31), **views)[0]
            return piece["kind"], piece["value"]

        address = "0x01" + "00" * 31
        self.assertEqual(shown("address"), ("address", address))
        self.assertEqual(shown("Account"), ("octets", 32))
        self.assertEqual(shown("Account", addresses=["Account"]), ("address", address))
        self.assertEqual(shown("Account", u256s=iter(["Account"])), ("u256", "1"))
        self.assertEqual(shown("Account", i256s=("Account",)), ("i256", "1"))

    def test_refused_views(self) -> None:
        name = "expected a name such as .payload.args[1]"
        missing = "the registry has no newtype of 32 bytes with this name"
        rows: list[tuple[dict[str, Any], type[Exception], tuple[Any, ...]]] = [
            ({"inside": {"": "P"}}, PathError, ("BadPath", None, "", name)),
            ({"inside": {"a=b": "P"}}, PathError, ("BadPath", None, "a=b", name)),
            ({"calls": {"a=b": "F"}}, PathError, ("BadPath", None, "a=b", name)),
            ({"inside": {'."a': "P"}}, PathError, ("BadPath", None, '."a', name)),
            ({"inside": {"[bcs]" * 16: "P"}}, PathError, ("BadPath", None, "[bcs]" * 16, f"inside: {name}")),
            (
                {"inside": {"[0]": '{"SEQ":\n"U8"}'}},
                PathError,
                ("BadPath", None, "[0]", "inside: a line feed, which no view may have"),
            ),
            ({"u256s": ["\n"]}, PathError, ("BadPath", None, "\n", "u256s: a line feed, which no view may have")),
            (
                {"inside": {"[0]": "P", "[1]": "Q"}},
                FormatError,
                ("UnknownName", None, "", "inside [1]: no container is called Q"),
            ),
            (
                {"calls": {".": "G"}},
                FormatError,
                ("UnknownName", None, "", "calls .: the registry has no arguments of this function"),
            ),
            ({"addresses": ["P"]}, FormatError, ("UnknownName", None, "", f"addresses P: {missing}")),
            ({"u256s": ["a\0"]}, FormatError, ("UnknownName", None, "", f"u256s a\0: {missing}")),
        ]
        for views, kind, args in rows:
            with self.assertRaises(kind) as raised:
                REGISTRY.explain(LIST, DATA, **views)
            self.assertEqual((type(raised.exception), raised.exception.args), (kind, args))
        with self.assertRaises(FormatError) as unknown:
            REGISTRY.explain("Nope", DATA, inside={"[0]": "P"})
        self.assertEqual(unknown.exception.message, "no container is called Nope")

    def test_wrong_types(self) -> None:
        wrong: list[dict[str, Any]] = [
            {"inside": ["P"]},
            {"inside": "P"},
            {"inside": {7: "P"}},
            {"inside": {"[0]": None}},
            {"inside": {"[0]": ["P"]}},
            {"calls": {".": 7}},
            {"calls": {".": b"F"}},
            {"calls": [("." "F")]},
            {"addresses": "P"},
            {"addresses": b"P"},
            {"addresses": [7]},
            {"u256s": [None]},
            {"i256s": 7},
            {"other": {}},
        ]
        for views in wrong:
            with self.assertRaises(TypeError):
                REGISTRY.explain(LIST, DATA, **views)


if __name__ == "__main__":
    unittest.main()
