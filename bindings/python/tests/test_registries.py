"""bcs-registry: YAML to JSON, what it refuses, and merged registries. The expected JSON is what serde_yaml reads."""

import io
import json
import pathlib
import re
import subprocess
import sys
import tempfile
import unittest
import unittest.mock
from contextlib import redirect_stderr, redirect_stdout
from typing import Any

import bcs_proved
from bcs_proved import registries
from bcs_proved.registries import Refused, from_yaml

EXAMPLES = pathlib.Path(__file__).resolve().parents[3] / "examples"
# YAML, the JSON that it means, and what is reported as changed.
CONVERTED: list[tuple[str, Any, list[str]]] = [
    ("{}", {}, []),
    ("---\nS: UNITSTRUCT\n...\n", {"S": "UNITSTRUCT"}, []),
    ("S:\n  STRUCT:\n  - a: U8\n  - b:\n      SEQ: U8\n", {"S": {"STRUCT": [{"a": "U8"}, {"b": {"SEQ": "U8"}}]}}, []),
    ("E:\n  ENUM:\n    0:\n      A: UNIT\n", {"E": {"ENUM": {"0": {"A": "UNIT"}}}}, ["numbers of variants: 1, 3"]),
    ("E:\n  ENUM:\n    '0':\n      A: UNIT\n", {"E": {"ENUM": {"0": {"A": "UNIT"}}}}, []),
    ("A:\n  TUPLEARRAY:\n    SIZE: 32\n", {"A": {"TUPLEARRAY": {"SIZE": 32}}}, []),
    ("A:\n  TUPLEARRAY:\n    SIZE: '32'\n", {"A": {"TUPLEARRAY": {"SIZE": "32"}}}, []),
    ("S: !NEWTYPESTRUCT U8\n", {"S": {"NEWTYPESTRUCT": "U8"}}, ["tags: 1, 1"]),
    ("S: !NEWTYPESTRUCT\n  SEQ: U8\n", {"S": {"NEWTYPESTRUCT": {"SEQ": "U8"}}}, ["tags: 1, 1"]),
    ("S: !TUPLESTRUCT\n- !OPTION U8\n- BOOL\n", {"S": {"TUPLESTRUCT": [{"OPTION": "U8"}, "BOOL"]}}, ["tags: 2, 1"]),
    ("No: UNITSTRUCT\nyes: UNITSTRUCT\n", {"No": "UNITSTRUCT", "yes": "UNITSTRUCT"}, ["`No`: 1, 1", "`yes`: 1, 2"]),
    (
        "S:\n  STRUCT:\n  - y: U8\n  - n: U8\n",
        {"S": {"STRUCT": [{"y": "U8"}, {"n": "U8"}]}},
        ["`y`: 1, 3", "`n`: 1, 4"],
    ),
    ("'true': UNITSTRUCT\n\"null\": 'UNITSTRUCT'\n", {"true": "UNITSTRUCT", "null": "UNITSTRUCT"}, []),
    ('"a\\u0000b\\n": UNITSTRUCT\n', {"a\0b\n": "UNITSTRUCT"}, []),
    ("a b-c: UNITSTRUCT # a comment\n", {"a b-c": "UNITSTRUCT"}, []),
    ('{A: UNITSTRUCT, "B": [1, {2: x}]}', {"A": "UNITSTRUCT", "B": [1, {"2": "x"}]}, ["numbers of variants: 1, 1"]),
]
# YAML that isn't a registry, and a part of the message.
REFUSED = [
    ("", "one document"),
    ("# nothing\n", "one document"),
    ("- A\n", "one document"),
    ("A: UNITSTRUCT\n---\nB: UNITSTRUCT\n", "one document"),
    ("A: UNITSTRUCT\nA: UNITSTRUCT\n", 'line 2: the name "A" occurs twice'),
    ("E:\n  0: a\n  '0': b\n", 'line 3: the name "0" occurs twice'),
    ("A: &x UNITSTRUCT\nB: *x\n", "line 1: anchors"),
    ("A: [&x [], *x, *x]\n", "anchors"),
    ("A:\n  <<: {a: b}\n", "line 2: `<<` isn't a name"),
    ("? [a, b]\n: U8\n", "a key is a mapping"),
    ("? {a: b}\n: U8\n", "a key is a mapping"),
    ("A: true\n", "`true` isn't a name"),
    ("true: UNITSTRUCT\n", "`true` isn't a name"),
    ("A: False\n", "`False` isn't a name"),
    ("A: ~\n", "`~` isn't a name"),
    ("A: null\n", "`null` isn't a name"),
    ("A:\nB: UNITSTRUCT\n", "line 1: `` isn't a name"),
    ("A: 1.5\n", "`1.5` isn't a name"),
    ("A: .inf\n", "`.inf` isn't a name"),
    ("A: 0x10\n", "`0x10` isn't a name"),
    ("A: 010\n", "`010` isn't a name"),
    ("A: -1\n", "`-1` isn't a name"),
    ("A: +1\n", "`+1` isn't a name"),
    ("A: 1_000\n", "`1_000` isn't a name"),
    ("A: 1:30\n", "`1:30` isn't a name"),
    ("A: 2001-01-01\n", "`2001-01-01` isn't a name"),
    (f"A: {'1' * 5000}\n", "more than 20 digits"),
    ("A: !!str 5\n", "the tag tag:yaml.org,2002:str isn't supported"),
    ("A: !!python/object/apply:os.system ['true']\n", "isn't supported"),
    ("A: !seq U8\n", "the tag !seq isn't supported"),
    ("!SEQ A: U8\n", "the tag !SEQ isn't supported"),
    ("A: !<!> U8\n", "isn't supported"),
    ("A: {\n", "while "),
    ("A: 'b\n", "while "),
    ("\tA: b\n", "while "),
    ("A: \0\n", "unacceptable character"),
    ("A: " + "[" * 200, "nests more than 130 deep"),
    ("A: " + "[" * 1_000_000, "nests more than 130 deep"),
    ("".join(f"{' ' * deep}a:\n" for deep in range(200)), "nests more than 130 deep"),
]


def shortened(change: str) -> str:
    """As CONVERTED has it."""
    what, lines = change.removeprefix("registry: ").rsplit(": ", 1)
    count, first = lines.split(", first in line ")
    what = what.split(",")[0].split(" without")[0].split(" that")[0]
    return f"{what}: {count}, {first}"


class Yaml(unittest.TestCase):
    def test_converted(self) -> None:
        for text, expected, changes in CONVERTED:
            with self.subTest(text=text):
                found, told = from_yaml(text.encode())
                self.assertEqual(found, expected)
                self.assertEqual(json.dumps(found), json.dumps(expected))
                self.assertEqual([shortened(change) for change in told], changes)

    def test_refused(self) -> None:
        for text, words in REFUSED:
            with self.subTest(text=text[:100]), self.assertRaises(Refused) as raised:
                from_yaml(text.encode())
            fault = raised.exception
            self.assertIn(words, f"{fault.at}: {fault.message}")
            self.assertEqual(str(fault), f"at {fault.at}: {fault.reason}: {fault.message}")

    def test_not_unicode(self) -> None:
        with self.assertRaises(Refused):
            from_yaml(b"A: \xff\n")


class Command(unittest.TestCase):
    def setUp(self) -> None:
        room = tempfile.TemporaryDirectory()
        self.addCleanup(room.cleanup)
        self.room = pathlib.Path(room.name)

    def file(self, name: str, text: str) -> str:
        (self.room / name).write_text(text, encoding="utf-8")
        return str(self.room / name)

    def run_with(self, *words: str) -> tuple[int, str]:
        """The status and standard error."""
        errors = io.StringIO()
        with redirect_stderr(errors), redirect_stdout(io.TextIOWrapper(io.BytesIO())):
            status = registries.main(list(words))
        return status, errors.getvalue()

    def converted(self, *words: str) -> Any:
        out = self.room / "out.json"
        status, errors = self.run_with(*words[:-1], "-o", str(out), words[-1])
        self.assertEqual(status, 0, errors)
        return json.loads(out.read_text(encoding="utf-8"))

    def test_example(self) -> None:
        whole = json.loads((EXAMPLES / "aptos_registry.json").read_text(encoding="utf-8"))
        for name in ["aptos_registry.yaml", "aptos_registry.json"]:
            self.assertEqual(self.converted(str(EXAMPLES / name)), whole)
        program = [sys.executable, "-m", "bcs_proved.registries", str(EXAMPLES / "aptos_registry.yaml")]
        told = subprocess.run(program, capture_output=True, text=True, check=True)
        self.assertEqual(json.loads(told.stdout), whole)
        self.assertIn("numbers of variants that became strings: 52, first in line 10", told.stderr)

    def test_proved_check(self) -> None:
        out = self.room / "out.json"
        out.write_text("before", encoding="utf-8")
        for name, text, reason in [
            ("a.yaml", "A: {NEWTYPESTRUCT: {TYPENAME: B}}\n", "UnknownName"),
            ("b.yaml", "A: UNIT\n", "BadShape"),
            ("c.json", "{", "NotJson"),
            ("d", ' {"A":{}}', "BadShape"),
        ]:
            status, errors = self.run_with("-o", str(out), self.file(name, text))
            self.assertEqual((status, out.read_text(encoding="utf-8")), (2, "before"))
            self.assertIn(reason, errors)

    def test_script(self) -> None:
        """It imports Python's own module `types`, and not the one beside it. Some have it already without -S."""
        script = pathlib.Path(registries.__file__)
        for name in [str(script), script.name]:
            words = [sys.executable, "-E", "-S", name, "--help"]
            told = subprocess.run(words, cwd=script.parent, capture_output=True, text=True)
            self.assertEqual((told.returncode, told.stdout, told.stderr), (0, registries.__doc__, ""))

    def test_merge(self) -> None:
        one = self.file("one.yaml", "A:\n  ENUM:\n    1:\n      X: UNIT\nB: UNITSTRUCT\n")
        other = self.file("other.json", '{"C":{"NEWTYPESTRUCT":{"TYPENAME":"B"}},"B":"UNITSTRUCT"}')
        third = self.file("third", '{"A":{"ENUM":{"1":{"X":"UNIT"}}}}')
        out = self.room / "merged.json"
        self.assertEqual(self.run_with("merge", "-o", str(out), one, other, third)[0], 0)
        merged = json.loads(out.read_text(encoding="utf-8"))
        self.assertEqual(list(merged), ["A", "B", "C"])
        for text in ['{"A":{"ENUM":{"1":{"Y":"UNIT"}}}}', '{"A":{"ENUM":{"2":{"X":"UNIT"}}}}', '{"A":"UNITSTRUCT"}']:
            status, errors = self.run_with("merge", one, self.file("apart.json", text))
            self.assertEqual(status, 2)
            self.assertIn('"A" isn\'t the same in ', errors)

    def test_order_of_fields(self) -> None:
        one = self.file("one.json", '{"S":{"STRUCT":[{"a":"U8"},{"b":"U8"}]}}')
        self.assertEqual(
            self.run_with("merge", one, self.file("b.json", '{"S":{"STRUCT":[{"b":"U8"},{"a":"U8"}]}}'))[0], 2
        )

    def test_arguments(self) -> None:
        wrong: list[list[str]] = [[""], ["a", "b"], ["-x"], ["merge"], ["merge", "a"], ["-o"], ["-o", ""]]
        for words in [*wrong, ["merge", "-o", "a", "b"]]:
            status, errors = self.run_with(*words)
            self.assertEqual((status, errors[:7]), (3, "error: "), words)
            self.assertIn("\n\nUsage: bcs-registry ", errors)
        none, out = self.room / "none.yaml", self.room / "none/out.json"
        one = self.file("one.json", "{}")
        self.assertEqual(self.run_with("-o", "-", one), (0, ""))
        self.assertFalse(pathlib.Path("-").exists(), "- is standard output")
        for words, expected in [
            ([str(none)], f"fault: open\nin the file {none}: No such file or directory\n"),
            ([str(self.room)], f"fault: open\nin the file {self.room}: Is a directory\n"),
            (["-o", str(out), one], f"fault: write\nin the file {out}: No such file or directory\n"),
        ]:
            self.assertEqual(self.run_with(*words), (4, expected))

    def run_command(self, *words: str, given: str = "") -> tuple[int, str, str]:
        told = subprocess.run(
            [sys.executable, "-m", "bcs_proved.registries", *words], input=given, capture_output=True, text=True
        )
        return told.returncode, told.stdout, told.stderr

    def test_standard_input(self) -> None:
        yaml = "A:\n  ENUM:\n    0:\n      No: UNIT\n"
        whole = {"A": {"ENUM": {"0": {"No": "UNIT"}}}}
        arguments: list[list[str]] = [[], ["-"]]
        for words in arguments:
            status, output, errors = self.run_command(*words, given=yaml)
            self.assertEqual((status, json.loads(output)), (0, whole))
            self.assertTrue(errors.startswith("the standard input: numbers of variants"), errors)
            self.assertEqual(json.loads(self.run_command(*words, given=json.dumps(whole))[1]), whole)
        other = self.file("other.json", '{"B":"UNITSTRUCT"}')
        self.assertEqual([*json.loads(self.run_command("merge", other, "-", given=yaml)[1])], ["B", "A"])

    def test_reports(self) -> None:
        """Refusals and faults are reported like those of the program."""
        clash = self.file("clash.json", '{"A":"UNITSTRUCT"}')
        rows: list[tuple[list[str], str, int, str, str]] = [
            ([], "A: [", 2, "refused: NotYaml\n", "at the standard input: NotYaml: while parsing"),
            ([], "A: &a b\n", 2, "refused: BadShape\n", "at the standard input, line 1: BadShape: anchors and"),
            ([], "A: UNIT\n", 2, "refused: BadShape\n", "at the standard input, /A: BadShape: expected a container"),
            ([], "A: UNIT\nA: UNIT\n", 2, "refused: RepeatedName\n", "at the standard input, line 2: RepeatedName: "),
            ([], "{", 2, "refused: NotJson\n", "at the standard input, line 1, column 1: NotJson: the document ends"),
            ([], f"A: {'9' * 30}\n", 2, "refused: BadNumber\n", "at the standard input, line 1: BadNumber: a number"),
            ([], "[" * 200, 2, "refused: TooNested\n", "at the standard input, line 1: TooNested: it nests"),
            (
                [],
                "A: {NEWTYPESTRUCT: {TYPENAME: B}}\n",
                2,
                "refused: UnknownName\n",
                "at the standard input, A: Unknown",
            ),
            (
                ["merge", "-", clash],
                "A: {NEWTYPESTRUCT: U8}\n",
                2,
                "refused: Different\n",
                'at merge: Different: "A" isn',
            ),
            (["none.yaml"], "", 4, "", "fault: open\nin the file none.yaml: No such file or directory\n"),
            (["merge", "-", "-"], "", 3, "", "error: only one registry can be the standard input\n\nUsage: "),
            (["a", "b"], "", 3, "", "error: unexpected argument 'b' found; to join registries, use merge\n\nUsage: "),
            (["-o", "c", "merge", "a", "b"], "", 3, "", "error: merge comes before everything else\n\nUsage: "),
            (["a", "merge", "b"], "", 3, "", "error: merge comes before everything else\n\nUsage: "),
        ]
        for words, given, status, output, errors in rows:
            told = self.run_command(*words, given=given)
            self.assertEqual((*told[:2], told[2][: len(errors)]), (status, output, errors))

    def test_too_large(self) -> None:
        """A file or standard input has at most 2^28 bytes, and what has more isn't read to its end."""
        large = self.room / "large.json"
        with large.open("wb") as file:
            file.truncate((1 << 28) + 1)
        self.assertEqual(self.run_command(str(large)), (4, "", f"fault: too large\nin the file {large}\n"))
        with large.open("rb") as file:
            words = [sys.executable, "-m", "bcs_proved.registries"]
            told = subprocess.run(words, stdin=file, capture_output=True, text=True)
        self.assertEqual((told.returncode, told.stderr), (4, "fault: too large\nin the standard input\n"))
        with unittest.mock.patch.object(registries, "_LARGEST", 20):
            for length, expected in [(20, 0), (21, 4)]:
                registry = '{"A":"UNITSTRUCT"}'.ljust(length)
                self.assertEqual(self.run_with(self.file("small.json", registry))[0], expected)

    def test_closed_streams(self) -> None:
        """What is meant for standard error never gets into the answer, and a closed stream is a fault."""
        yaml = self.file("one.yaml", "A:\n  ENUM:\n    0:\n      X: UNIT\n")
        whole = {"A": {"ENUM": {"0": {"X": "UNIT"}}}}
        out = self.room / "out.json"
        rows: list[tuple[list[str], str, int, str]] = [
            ([yaml], "2>&-", 0, ""),
            (["-o", str(out), yaml], "2>&-", 0, ""),
            (["-o", str(out), yaml], "0<&- 1>&- 2>&-", 0, ""),
            (["-o", str(out), yaml], "1>&-", 0, f"{yaml}: numbers of variants"),
            ([yaml], "1>&-", 4, "fault: write\nin the standard output: Bad file descriptor\n"),
            ([], "0<&-", 4, "fault: read\nin the standard input: Bad file descriptor\n"),
            (["-o", "/dev/stderr", yaml], "2>&-", 4, ""),
        ]
        for words, closed, status, said in rows:
            out.unlink(missing_ok=True)
            command = ["sh", "-c", f'exec "$@" {closed}', "sh", sys.executable, "-m", "bcs_proved.registries", *words]
            told = subprocess.run(command, capture_output=True, text=True)
            self.assertEqual((told.returncode, said in told.stderr), (status, True), (words, closed, told.stderr))
            if status == 0:
                found = out.read_text(encoding="utf-8") if "-o" in words else told.stdout
                self.assertEqual(json.loads(found), whole, (words, closed))

    def test_checks_by_the_module_and_the_program(self) -> None:
        """They report the same."""
        checks = [registries._by_module(bcs_proved), registries._by_program(str(EXAMPLES.parent / "bcs"))]
        for text in ["{", "", "7", '{"A":"UNIT"}', '{"A":{"NEWTYPESTRUCT":{"TYPENAME":"B"}}}', '{"A":7,"A":7}', "\xff"]:
            reports = []
            for check in checks:
                with self.assertRaises(Refused) as raised:
                    check(text.encode("latin1"), "a.json")
                reports.append(raised.exception.args)
            self.assertEqual(*reports)
        for check in checks:
            check(b'{"A":"UNITSTRUCT"}', "a.json")

    def test_help_and_version(self) -> None:
        for words in [["--version"], ["-V"]]:
            self.assertEqual(self.run_command(*words), (0, f"bcs-registry {bcs_proved.__version__}\n", ""))
        for words in [["--help"], ["-h"]]:
            status, output, errors = self.run_command(*words)
            self.assertEqual((status, errors, output), (0, "", registries.__doc__))

    def test_manual(self) -> None:
        """It has each option, and each line of the usage."""
        manual = (EXAMPLES.parent / "tools/packaging/bcs-registry.1").read_text(encoding="ascii").replace("\\-", "-")
        for word in ["-o", "--output", "-h", "--help", "-V", "--version", "merge", "REGISTRY", bcs_proved.__version__]:
            self.assertIn(word, manual)
        for line in (registries.__doc__ or "").split("Usage: ")[1].splitlines()[:2]:
            self.assertIn(line.strip(), re.sub(r"\\f[BIR]", "", manual))


if __name__ == "__main__":
    unittest.main()
