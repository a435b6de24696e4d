"""The command `python3 -m bcs_proved.vectors`: its lines, its arguments, and hostile registries. Whether the lines find
bugs is what tests/vectors.py of the repository tests."""

import json
import os
import pathlib
import subprocess
import sys
import tempfile
import unittest
from typing import Any

from bcs_proved import BytesError, Limits, Registry, TextError

ROOT = pathlib.Path(__file__).resolve().parents[3]
EVERY_FORMAT = ROOT / "examples/every_format.json"
MEMBERS = (
    ["format", "json", "bytes"],
    ["format", "bytes"],
    ["format", "bytes", "refused", "place"],
    ["format", "text", "bytes"],
    ["format", "text", "refused", "place"],
    ["format", "text", "refused"],
)


def ran(*arguments: str, **options: Any) -> "subprocess.CompletedProcess[bytes]":
    command = [sys.executable, "-m", "bcs_proved.vectors", *arguments]
    return subprocess.run(command, capture_output=True, timeout=300, **options)


def lines_of(registry: Any, *arguments: str) -> list[dict[str, Any]]:
    text = registry if isinstance(registry, str) else json.dumps(registry)
    with tempfile.NamedTemporaryFile("w", encoding="utf-8", suffix=".json") as file:
        file.write(text)
        file.flush()
        end = ran(file.name, *arguments)
    if end.returncode != 0 or end.stderr:
        raise AssertionError(f"status {end.returncode}: {end.stderr.decode()}")
    return [json.loads(line) for line in end.stdout.decode("ascii").splitlines()]


def reasons(lines: list[dict[str, Any]], format: str = "") -> set[str]:
    return {line["refused"] for line in lines if "refused" in line and line["format"] == (format or line["format"])}


class Lines(unittest.TestCase):
    def test_kinds_and_verdicts(self) -> None:
        registry = Registry(EVERY_FORMAT)
        lines = lines_of(EVERY_FORMAT.read_text(encoding="utf-8"), "--texts", "--count", "50")
        kinds = {tuple(line) for line in lines}
        self.assertEqual(kinds, {tuple(members) for members in MEMBERS})
        for line in lines:
            with self.subTest(**line):
                self.require_verdict(registry, line)

    def require_verdict(self, registry: Registry, line: dict[str, Any]) -> None:
        format, limits = line["format"], Limits.standard()
        if "refused" not in line:
            text = line["text"] if "text" in line else json.dumps(line["json"]) if "json" in line else None
            data = bytes.fromhex(line["bytes"])
            if text is not None:
                self.assertEqual(registry.encode_json(format, text), data)
            self.assertEqual(registry.scan(format, data, limits), len(data))
            if "json" in line:
                self.assertEqual(registry.encode(format, registry.decode(format, data)), data)
        elif "text" in line:
            with self.assertRaises(TextError) as raised:
                registry.encode_json(format, line["text"])
            self.assertEqual(raised.exception.reason, line["refused"])
            self.assertEqual(raised.exception.at, line.get("place", ""))
        else:
            with self.assertRaises(BytesError) as refused:
                registry.decode_json(format, bytes.fromhex(line["bytes"]), limits)
            self.assertEqual(
                (refused.exception.reason, refused.exception.place),
                (line["refused"], line["place"]),
            )

    def test_same_lines_whatever_the_hash(self) -> None:
        outputs = set()
        for salt in ("1", "2"):
            words = (
                str(EVERY_FORMAT),
                "Tree",
                "ByShape",
                "--texts",
                "--count",
                "20",
                "--seed",
                "-3",
            )
            end = ran(*words, env={**os.environ, "PYTHONHASHSEED": salt})
            outputs.add(end.stdout)
        self.assertEqual(len(outputs), 1)
        self.assertNotEqual(outputs, {ran(*words[:-1], "4").stdout})

    def test_every_reason(self) -> None:
        """The 14 reasons for bytes. Items with several nodes and no bytes lead to TooManyNodes."""
        nothings = {
            "N": {"NEWTYPESTRUCT": {"SEQ": {"TUPLE": ["UNIT", "UNIT"]}}},
            "F": {"NEWTYPESTRUCT": {"OPTION": "F64"}},
        }
        found = reasons(lines_of({**json.loads(EVERY_FORMAT.read_text(encoding="utf-8")), **nothings}))
        self.assertEqual(
            found,
            {
                *(
                    "EndOfInput",
                    "BadBool",
                    "BadOption",
                    "LongForm",
                    "NumberTooLarge",
                    "LengthTooLarge",
                ),
                *(
                    "UnknownVariant",
                    "BadUtf8",
                    "KeyOrder",
                    "KeyRepeated",
                    "TooDeep",
                    "TooManyNodes",
                ),
                *("Unsupported", "TrailingBytes"),
            },
        )

    def test_default_set_covers(self) -> None:
        lines = lines_of(EVERY_FORMAT.read_text(encoding="utf-8"))
        registry = json.loads(EVERY_FORMAT.read_text(encoding="utf-8"))
        self.assertEqual({line["format"] for line in lines}, set(registry))
        parts = [line["json"] for line in lines if "json" in line]
        for part in parts:
            parts += part if isinstance(part, list) else [*part, *part.values()] if isinstance(part, dict) else []
        names = {variant for name in ("Shape", "Chain") for one in registry[name]["ENUM"].values() for variant in one}
        self.assertLessEqual(names, {part for part in parts if isinstance(part, str)})
        self.assertLessEqual(
            {0, 1, 2, 127, 128, 300, 501},
            {len(part) for part in parts if isinstance(part, list)},
        )
        strings = {len(part.encode()) for part in parts if isinstance(part, str)}
        self.assertLessEqual({0, 1, 2, 127, 128, 300, 16384, 2 * 16384}, strings)
        numbers = {str(part) for part in parts}
        for bits in (8, 16, 32, 64, 128):
            bounds = (0, 2**bits - 1, 2 ** (bits - 1) - 1, -(2 ** (bits - 1)), -1)
            self.assertLessEqual(set(map(str, bounds)), numbers)

    def test_formats(self) -> None:
        lines = lines_of({"A": "UNITSTRUCT", "{B": {"STRUCT": [{"é\n": {"TYPENAME": "A"}}]}})
        self.assertEqual(sorted({line["format"] for line in lines}), ["A", '{"TYPENAME": "{B"}'])
        formats = ['{"SEQ":"U8"}', '"U64"', "A"]
        lines = lines_of({"A": "UNITSTRUCT"}, *formats, "A")
        self.assertEqual(list(dict.fromkeys(line["format"] for line in lines)), formats)

    def test_count(self) -> None:
        default = lines_of('{"A":{"NEWTYPESTRUCT":"U64"}}', "--count", "0")
        more = lines_of('{"A":{"NEWTYPESTRUCT":"U64"}}', "--count", "100")
        self.assertEqual(more[: len(default)], default)
        self.assertGreater(len(more), len(default) + 100)


class Hostile(unittest.TestCase):
    def test_no_values(self) -> None:
        registry = {
            "Empty": {"ENUM": {}},
            "Circle": {"NEWTYPESTRUCT": {"TYPENAME": "Circle"}},
            "Float": {"STRUCT": [{"x": "U8"}, {"y": "F32"}]},
            "Huge": {"NEWTYPESTRUCT": {"TUPLEARRAY": {"CONTENT": "U8", "SIZE": 2**64 - 1}}},
            "HugeUnits": {"NEWTYPESTRUCT": {"TUPLEARRAY": {"CONTENT": "UNIT", "SIZE": 2**20}}},
            "Option": {"NEWTYPESTRUCT": {"OPTION": {"TYPENAME": "Circle"}}},
        }
        lines = lines_of(registry, "--texts", "--count", "20")
        self.assertEqual({line["format"] for line in lines}, set(registry) - {"HugeUnits"})
        self.assertEqual(reasons(lines, "Circle"), {"TooDeep"})
        self.assertEqual(reasons(lines, "Float"), {"Unsupported", "EndOfInput"})

    def test_exponential(self) -> None:
        """A value of the last one has 2^40 nodes."""
        registry: dict[str, Any] = {"T0": {"TUPLESTRUCT": ["U8", "U8"]}}
        for number in range(1, 40):
            before = {"TYPENAME": f"T{number - 1}"}
            registry[f"T{number}"] = {"TUPLESTRUCT": [before, before]}
        self.assertTrue(lines_of(registry))

    def test_deep(self) -> None:
        """Chains of 400 and of 600 containers, each with formats of 32 levels."""

        def wrapped(name: str) -> Any:
            format: Any = {"TYPENAME": name}
            for _ in range(32):
                format = {"TUPLE": [format]}
            return format

        for count in (400, 600):
            registry: dict[str, Any] = {f"C{n}": {"NEWTYPESTRUCT": wrapped(f"C{n + 1}")} for n in range(count)}
            registry[f"C{count}"] = {"NEWTYPESTRUCT": "BOOL"}
            lines = lines_of(registry, "C0")
            self.assertEqual("TooDeep" in reasons(lines), count == 600)
            self.assertEqual(any("refused" not in line for line in lines), count == 400)

    def test_circles(self) -> None:
        registry = {
            "A": {
                "STRUCT": [
                    {"b": {"OPTION": {"TYPENAME": "B"}}},
                    {"c": {"SEQ": {"TYPENAME": "C"}}},
                ]
            },
            "B": {
                "ENUM": {
                    "0": {"A": {"NEWTYPE": {"TYPENAME": "A"}}},
                    "7": {"C": {"TUPLE": [{"TYPENAME": "C"}, "BOOL"]}},
                }
            },
            "C": {"NEWTYPESTRUCT": {"MAP": {"KEY": {"TYPENAME": "A"}, "VALUE": {"TYPENAME": "B"}}}},
        }
        for formats in ("", "A", "C A"):
            lines = lines_of(registry, *formats.split())
            self.assertIn("TooDeep", reasons(lines))
            self.assertTrue(any(len(line) == 2 for line in lines))

    def test_many_variants(self) -> None:
        enum = {"E": {"ENUM": {str(n): {f"V{n}": "UNIT" if n % 2 else {"NEWTYPE": "U8"}} for n in range(300)}}}
        values = [line["json"] for line in lines_of(enum) if "json" in line]
        names = {value if isinstance(value, str) else next(iter(value)) for value in values}
        self.assertEqual(len(names), 300)
        last = {"E": {"ENUM": {"4294967295": {"Last": "UNIT"}}}}
        self.assertIn("UnknownVariant", reasons(lines_of(last)))

    def test_odd_names(self) -> None:
        text = (ROOT / "tests/rows/hostile_names.json").read_text(encoding="utf-8")
        self.assertEqual(
            len({line["format"] for line in lines_of(text, "--texts")}),
            len(json.loads(text)),
        )


class Arguments(unittest.TestCase):
    def require(self, status: int, said: str, *arguments: str) -> None:
        """One line on standard error, and nothing on standard output."""
        end = ran(*arguments)
        self.assertEqual((end.returncode, end.stdout), (status, b""), arguments)
        self.assertEqual(len(end.stderr.decode().splitlines()), 1, end.stderr)
        self.assertIn(said, end.stderr.decode())

    def test_errors(self) -> None:
        registry = '{"A":"UNITSTRUCT"}'
        self.require(3, "REG")
        self.require(3, "--count", registry, "--count", "-1")
        self.require(3, "--count", registry, "--count", "x")
        self.require(3, "--seed", registry, "--seed", "1.5")
        self.require(3, "--text", registry, "--text")
        self.require(3, "no containers", "{}")
        self.require(2, "UnknownName", registry, "B")
        self.require(2, "NotJson", registry, "{")
        self.require(2, "UnknownName", registry, "A", '{"SEQ":{"TYPENAME":"B"}}')
        self.require(2, "NotJson", '{"A":')
        self.require(2, "BadShape", '{"A":1}')
        self.require(4, "No such file", "no/such/file")
        self.require(4, "directory", str(ROOT))

    def test_odd_files(self) -> None:
        with tempfile.TemporaryDirectory() as folder:
            file = pathlib.Path(folder) / "registry.json"
            for content in (
                b"",
                b"\xff",
                b"\0",
                b"[" * 200,
                b"[]",
                b"1",
                b"A: UNITSTRUCT",
            ):
                file.write_bytes(content)
                self.require(2, "refused: ", str(file))

    def test_no_library(self) -> None:
        end = ran('{"A":"UNITSTRUCT"}', env={**os.environ, "BCS_LIBRARY": "/no/such/library"})
        self.assertEqual((end.returncode, end.stdout, len(end.stderr.splitlines())), (4, b"", 1))

    def test_help(self) -> None:
        end = ran("--help")
        self.assertEqual((end.returncode, end.stderr), (0, b""))
        self.assertIn(b"REG", end.stdout)

    def test_closed_pipe(self) -> None:
        command = [
            sys.executable,
            "-m",
            "bcs_proved.vectors",
            str(EVERY_FORMAT),
            "--count",
            "1000000000",
        ]
        with subprocess.Popen(command, stdout=subprocess.PIPE, stderr=subprocess.PIPE) as run:
            assert run.stdout and run.stderr
            run.stdout.readline()
            run.stdout.close()
            self.assertEqual(run.stderr.read(), b"")
            self.assertEqual(run.wait(), 4)

    def test_full_disk(self) -> None:
        with open("/dev/full", "wb") as full:
            command = [sys.executable, "-m", "bcs_proved.vectors", '{"A":"UNITSTRUCT"}']
            end = subprocess.run(command, stdout=full, stderr=subprocess.PIPE)
        self.assertEqual((end.returncode, len(end.stderr.splitlines())), (4, 1))


if __name__ == "__main__":
    unittest.main()
