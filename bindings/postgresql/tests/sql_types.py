"""Tests every type of SQL at every argument, and every kind of JSON at every format.

Each gets the right answer, which bindings/sql/values.py works out, or is rejected. PGHOST and PGUSER name the server.
"""

from __future__ import annotations

import json
import pathlib
import sys
import unittest
from typing import Any

import psycopg2
from sessions import Database, value

sys.path.append(str(pathlib.Path(__file__).resolve().parents[2] / "sql"))
from values import FORMATS, REGISTRY, TEXTS, cells, digits_of  # noqa: E402

# A value of each type that could pass for 7, for {} or for a name; and those that a function of a type takes.
TYPED = cells(
    r"""
    7::int2 | 7::int4 | 7::int8 | 7::numeric | 7.0::numeric | 7::real | 7::float8 | '7'::money | true | '7'::text
    '7'::varchar | '7'::varchar(3) | '7'::bpchar | '7'::name | '7'::"char" | '7'::bytea | '\x07'::bytea | '7'::json
    '7'::jsonb | '$.a'::jsonpath | B'111' | B'111'::varbit | '7'::xml | '7'::oid | '2026-11-28'::date | now()
    '7s'::interval | '00000000-0000-0000-0000-000000000007'::uuid | array[7] | array['7'] | row(7)
    '[7,8)'::int4range | '127.0.0.7'::inet | '(7,7)'::point | '7'::tsvector | 'bcs_registries'::regclass
    """
)
AS_TEXT = ["text", "varchar", "varchar(3)", "bpchar", "name", '"char"']
AS_NUMBER = ["int2", "int4"]


def type_of(expression: str) -> str:
    return expression.split("::")[1] if "::" in expression else expression


class Types(Database):
    name = "types"

    def told(self, expression: str, *arguments: object) -> Any:
        """What an expression answers, bytes as digits, or its SQLSTATE."""
        try:
            answer = value(self.session, "select " + expression, *arguments)
        except psycopg2.Error as fault:
            return fault.pgcode
        return bytes(answer).hex() if isinstance(answer, memoryview) else answer

    def test_json_at_formats(self) -> None:
        """A value as json, jsonb, text and an untyped literal. What is accepted comes back as the same bytes."""
        count = 0
        for format in FORMATS:
            words = REGISTRY, json.dumps(format)
            for text in TEXTS:
                for call, type, is_jsonb in [
                    ("bcs_encode", "::jsonb", True),
                    ("bcs_encode", "", True),
                    ("bcs_encode_json", "::json", False),
                    ("bcs_encode_json", "::text", False),
                    ("bcs_encode_json", "", False),
                ]:
                    told = self.told(f"{call}(%s, %s, %s{type})", *words, text)
                    right = digits_of(format, text, is_jsonb)
                    right = "22P02" if right is None else right
                    self.assertEqual((format, text, call + type, told), (format, text, call + type, right))
                    count += 1
                    if right != "22P02":
                        self.comes_back(words, right)
        print(f"types: {count} JSON values at formats")

    def comes_back(self, words: tuple[str, str], digits: str) -> None:
        data = f"'\\x{digits}'"
        for call in (
            f"bcs_encode(%s, %s, bcs_decode(%s, %s, {data}))",
            f"bcs_encode_json(%s, %s, bcs_decode_json(%s, %s, {data}))",
        ):
            self.assertEqual(self.told(call, *words, *words), digits)

    def at(self, call: str, right: object, taken: list[str]) -> None:
        """Puts an expression of each type in place of the mark. Only those of the accepted types get the answer."""
        for expression in TYPED:
            told = self.told(call.replace("?", expression).replace("%", "%%"))
            answer = right if type_of(expression) in taken else "42883"
            self.assertEqual((call, expression, told), (call, expression, answer))
        self.assertIsNone(self.told(call.replace("?", "null")))
        for type in taken:
            self.assertIsNone(self.told(call.replace("?", f"null::{type}")))

    def test_types_at_values(self) -> None:
        self.at("bcs_encode('{}', '\"U64\"', ?)", "07" + "00" * 7, ["jsonb"])
        self.at("bcs_encode_json('{}', '\"U64\"', ?)", "07" + "00" * 7, ["json", *AS_TEXT])
        self.at("bcs_normalise('{}', '\"U8\"', ?)", 7, ["json", *AS_TEXT])
        self.at("bcs_equal('{}', '\"U8\"', ?, '8')", False, ["json", *AS_TEXT])
        self.at("bcs_equal('{}', '\"U8\"', '8', ?)", False, ["json", *AS_TEXT])

    def test_types_at_bytes(self) -> None:
        """The bytes of '7'::bytea are 37, as the server defines it."""
        right = {"'7'::bytea": 55, "'\\x07'::bytea": 7}
        for call in "bcs_decode_json", "bcs_decode":
            for expression in TYPED:
                told = self.told(f"{call}('{{}}', '\"U8\"', {expression})")
                self.assertEqual((expression, told), (expression, right.get(expression, "42883")))
        for call, answer in [
            ("bcs_is('{}', '\"U8\"', ?)", True),
            ("bcs_scan('{}', '\"U8\"', ?)", 1),
            ("bcs_fault('{}', '\"U8\"', ?)", None),
            ("bcs_part_place('{}', '\"U8\"', ?, '.')", 0),
            ("length(bcs_part_by_name('{}', '\"U8\"', ?, '.'))", 1),
            ("length(bcs_part_by_pointer('{}', '\"U8\"', ?, ''))", 1),
            ("bcs_explain('{}', '\"BYTES\"', ?) ~ 'BYTES'", True),
            ("bcs_explain_with('{}', '\"BYTES\"', ?, 'ways', '') ~ 'BYTES'", True),
            ('length(bcs_content(\'{}\', \'{"TUPLEARRAY":{"CONTENT":"U8","SIZE":1}}\', ?, \'.\'))', 1),
            ('length(bcs_content_by_name(\'{}\', \'{"TUPLEARRAY":{"CONTENT":"U8","SIZE":1}}\', ?, \'.\'))', 1),
            ('length(bcs_content_by_pointer(\'{}\', \'{"TUPLEARRAY":{"CONTENT":"U8","SIZE":1}}\', ?, \'\'))', 1),
        ]:
            self.at(call, answer, ["bytea"])

    def test_types_at_registries_formats_and_words(self) -> None:
        """7 is no registry, no name of one, no format, no path and no form, and each is refused as what it is."""
        self.at("bcs_is(?, '\"U8\"', '\\x07')", "22023", ["json", *AS_TEXT])
        self.at("bcs_is('{}', ?, '\\x07')", "22023", AS_TEXT)
        self.at("bcs_part('{}', '\"U8\"', '\\x07', ?)", None, AS_TEXT)
        self.at("bcs_explain('{}', '\"U8\"', '\\x07', ?)", "22023", AS_TEXT)
        self.at("bcs_explain_with('{}', '\"U8\"', '\\x07', ?, '')", "22023", AS_TEXT)
        self.at("bcs_explain_with('{}', '\"U8\"', '\\x07', 'ways', ?)", "22023", AS_TEXT)
        self.at("bcs_content('{}', '\"BYTES\"', '\\x0107', ?)", None, AS_TEXT)

    def test_types_at_modules(self) -> None:
        """7 isn't the JSON of modules, and no type, and each is refused as what it is."""
        for name in "bcs_registry_of_modules", "bcs_notes_of_modules":
            self.at(f"{name}(?, array['u8'])", "22023", ["json", *AS_TEXT])
            for expression in TYPED:
                told = self.told(f"{name}('[]', {expression})")
                self.assertEqual((expression, told), (expression, "22023" if expression == "array['7']" else "42883"))
            self.assertIsNone(self.told(f"{name}('[]', null)"))

    def test_types_at_limits(self) -> None:
        self.at("bcs_is('{}', '\"U8\"', '\\x07', ?)", True, ["int8", *AS_NUMBER])
        self.at("bcs_is('{}', '\"U8\"', '\\x07', 1, ?)", True, AS_NUMBER)


if __name__ == "__main__":
    unittest.main()
