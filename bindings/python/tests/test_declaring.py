"""The commands that write types for other languages: their arguments, and what they refuse. What they write is tested
where those languages are."""

import pathlib
import subprocess
import sys
import unittest

ROOT = pathlib.Path(__file__).resolve().parents[3]
# A status, what is printed among other things, on standard error too, and the arguments.
Case = tuple[int, str, str, list[str]]
WIDE = '{"A":{"NEWTYPESTRUCT":{"TUPLEARRAY":{"CONTENT":"U8","SIZE":32}}}}'


def declared(command: str, *words: str) -> subprocess.CompletedProcess[str]:
    return subprocess.run(
        [sys.executable, "-m", f"bcs_proved.{command}", *words], capture_output=True, text=True, check=False
    )


class Declaring(unittest.TestCase):
    def check(self, command: str, cases: list[Case]) -> None:
        """Each command with these arguments has this status, and prints this among other things."""
        for status, output, error, words in cases:
            told = declared(command, *words)
            self.assertEqual(told.returncode, status, (words, told))
            self.assertIn(output, told.stdout)
            self.assertIn(error, told.stderr)
            self.assertEqual(bool(told.stderr), status != 0, words)
            self.assertEqual(bool(told.stdout), status == 0, words)

    def test_go(self) -> None:
        usage = "Usage: python -m bcs_proved.go_types [--package NAME] [--address NAME]"
        cases: list[Case] = [
            (0, "python -m bcs_proved.go_types", "", ["--help"]),
            (0, "package registry\n", "", ["{}"]),
            (0, "package a\n", "", ["--package", "b", "--package", "a", "{}"]),
            (0, "type A string\n", "", ["--address", "A", WIDE]),
            (0, "type A = *big.Int\n", "", ["--i256", "A", WIDE]),
            (0, "type A [32]byte\n", "", [WIDE]),
            (2, "", "UnknownName", ['{"A":{"NEWTYPESTRUCT":{"TYPENAME":"B"}}}']),
            (2, "", "NotJson", ["{"]),
            (3, "", "no newtype of 32 bytes called 'B'", ["--u256", "B", WIDE]),
            (3, "", "not the name of a package: 'A b'", ["--package", "A b", WIDE]),
            (3, "", usage, []),
            (3, "", usage, ["a.json", "b.json"]),
            (3, "", usage, ["--other"]),
            (3, "", usage, ["--package", "a"]),
            (3, "", usage, ["--class", "A", "{}"]),
            (4, "", "fault: [Errno 2] No such file or directory: '/none.json'", ["/none.json"]),
        ]
        self.check("go_types", cases)

    def test_java(self) -> None:
        usage = "Usage: python -m bcs_proved.java_types [--package NAME] [--name NAME] [--address NAME]"
        escaped = '{"A":{"STRUCT":[{"\\"\\\\u000a\\n\\u00e9":"U8"}]},"\\n*/":"UNITSTRUCT"}'
        cases: list[Case] = [
            (0, "python -m bcs_proved.java_types", "", ["--help"]),
            (0, "public final class Types {", "", ["{}"]),
            (0, "package a.b;\n\npublic final class B {", "", ["--package", "a.b", "--name", "B", "{}"]),
            (0, '@Bcs("\\"\\\\u000a\\012\\u00e9") int u000a) {}', "", [escaped]),
            (0, '// The container "\\012*/".\n    public record T() {}', "", [escaped]),
            (2, "", "UnknownName", ['{"A":{"NEWTYPESTRUCT":{"TYPENAME":"B"}}}']),
            (3, "", "not the name of a package: 'a.class'", ["--package", "a.class", WIDE]),
            (3, "", "not a name for the class: 'Optional'", ["--name", "Optional", WIDE]),
            (3, "", "no newtype of 32 bytes called 'B'", ["--address", "B", WIDE]),
            (3, "", usage, ["--package"]),
            (4, "", "fault: ", ["/none.json"]),
        ]
        self.check("java_types", cases)


if __name__ == "__main__":
    unittest.main()
