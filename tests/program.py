#!/usr/bin/env python3
"""Tests what a table of rows can't: many lines, deep registries, memory and time.

    tests/program.py [FOLDER]

FOLDER has the program `bcs`; without it, the proved one is tested, as `rt ci` or `rt run` left it. It must name the
logic of the toolchain that is installed here.
"""

import json
import os
import pathlib
import resource
import subprocess
import sys
import tempfile
from concurrent.futures import ThreadPoolExecutor

from harness import ROOT, end_with, fail, passed, program_in_folder, run

COUNT = 10_000
STACK = 8 << 20
# Of the containers in examples/. Fewer mean that a registry wasn't read.
LEAST_CONTAINERS = 400
LEVELS = 32
# The options of `example`.
FORMS: list[list[str]] = [[], ["--full"]]


def set_stack() -> None:
    resource.setrlimit(resource.RLIMIT_STACK, (STACK, STACK))


class Program:
    """The program, and a folder for its input."""

    def __init__(self, path: pathlib.Path, room: pathlib.Path) -> None:
        self.path, self.room = path, room

    def run(self, *words: str, stdin: str = "") -> subprocess.CompletedProcess[str]:
        return subprocess.run([self.path, *words], input=stdin, stdout=subprocess.PIPE, encoding="utf-8")

    def file(self, name: str, lines: list[str]) -> str:
        path = self.room / name
        path.write_text("".join(f"{line}\n" for line in lines), encoding="utf-8")
        return str(path)

    def expect(self, words: list[str], status: int, lines: list[str]) -> None:
        """Checks what the program answers to these arguments."""
        ended = self.run(*words)
        if ended.returncode != status or ended.stdout != "".join(f"{line}\n" for line in lines):
            fail(f"{' '.join(words)[:300]}: status {ended.returncode}, {ended.stdout[:300]}")

    def check_version(self) -> None:
        said, kit = self.run("--version").stdout.rstrip("\n"), run("rt", "version").rstrip("\n")
        if said.partition("proved with Rattle ")[2] != kit.partition(" ")[2]:
            fail(f"it says '{said}', and the toolchain is {kit}")
        passed(said)

    def check_lines(self) -> None:
        """Every fifth line is no number. So the status is 2."""
        numbers = range(1, COUNT + 1)
        texts = [str(number) if number % 5 else "x" for number in numbers]
        digits = [number.to_bytes(2, "little").hex() if number % 5 else "refused: NotJson" for number in numbers]
        back = [str(number) if number % 5 else "refused: BadHex" for number in numbers]
        job = ["--quiet", "--lines", "{}", '"U16"']
        self.expect(["encode", *job, self.file("numbers", texts)], 2, digits)
        self.expect(["decode", *job, self.file("digits", digits)], 2, back)
        passed(f"{COUNT} lines, and back")

    def check_output(self) -> None:
        """A file is created, or emptied and written, even the input, and left alone if the status isn't 0."""
        given, answer = self.file("given", ["-4660"]), self.room / "answer"
        job = ["encode", "--quiet", "--raw", "{}"]
        for older in (b"", b"an older answer"):
            answer.write_bytes(older)
            for format, status, found in [('"U8"', 2, older), ('"I16"', 0, b"\xcc\xed"), ('"U8"', 2, b"\xcc\xed")]:
                self.expect([*job, format, given, "-o", str(answer)], status, [])
                if answer.read_bytes() != found:
                    fail(f"-o leaves {answer.read_bytes()!r} in the file, and not {found!r}")
        answer.unlink()
        self.expect([*job, '"U8"', given, "-o", str(answer)], 2, [])
        if answer.exists():
            fail("-o creates a file for a refusal")
        self.expect([*job, '"I16"', given, "-o", given], 0, [])
        if pathlib.Path(given).read_bytes() != b"\xcc\xed":
            fail("-o doesn't write the file that was read")
        passed("answers in files")

    def check_costs(self) -> None:
        path = str(self.path)
        tests = {
            "many lines take more memory or time than they may": ["bench/sizes.py", path, "--bounds"],
            "a place is wrong, or takes more time than it may": ["tests/places.py", path],
            "a scan reads otherwise than it may": ["tests/reading.py", path],
        }
        for what, command in tests.items():
            if subprocess.run([sys.executable, *command]).returncode != 0:
                fail(what)

    def check_many_containers(self) -> None:
        made = run(sys.executable, "bench/many_containers.py")
        if made != pathlib.Path("examples/many_containers.json").read_text(encoding="utf-8"):
            fail("examples/many_containers.json isn't what its script prints")
        self.expect(["check", "examples/many_containers.json"], 0, ["ok 408"])
        passed("a registry of 408 containers")

    def check_deep_examples(self) -> None:
        """500 containers are open, each a variant, a field and 32 levels of tuples. The JSON would nest too deep."""
        registry = self.file("deep", [deep_registry()])
        for form in FORMS:
            command = [str(self.path), "example", *form, registry, "C100"]
            ended = subprocess.run(command, stdout=subprocess.PIPE, encoding="utf-8", preexec_fn=set_stack)
            if (ended.returncode, ended.stdout) != (2, "refused: TooNested\n"):
                fail(f"example {form} of 500 open containers: status {ended.returncode}, {ended.stdout[:300]}")
        passed("examples in which 500 containers are open")

    def check_examples(self) -> None:
        """Each container of a registry in examples/ has an example, and a full one, that `encode` accepts."""
        containers = [
            (str(registry), name)
            for registry in sorted(pathlib.Path("examples").glob("*.json"))
            if self.run("check", "--quiet", str(registry)).returncode == 0
            for name in json.loads(registry.read_text(encoding="utf-8"))
        ]
        with ThreadPoolExecutor(os.cpu_count()) as lanes:
            for wrong in lanes.map(lambda container: self.wrong_example(*container), containers):
                if wrong:
                    fail(wrong)
        if len(containers) <= LEAST_CONTAINERS:
            fail(f"the registries of examples/ have only {len(containers)} containers")
        passed(f"encode takes the examples of {len(containers)} containers")

    def wrong_example(self, registry: str, name: str) -> str:
        for form in FORMS:
            example = self.run("example", *form, registry, name)
            encoded = self.run("encode", registry, name, stdin=example.stdout)
            if example.returncode != 0 or encoded.returncode != 0:
                return f"example {form} of {name} in {registry}"
        return ""


def deep_registry() -> str:
    containers = {}
    for number in range(100, 600):
        content = "U8" if number == 599 else {"TYPENAME": f"C{number + 1}"}
        for _ in range(LEVELS):
            content = {"TUPLE": [content]}
        containers[f"C{number}"] = {"ENUM": {"0": {"V": {"STRUCT": [{"f": content}]}}}}
    return json.dumps(containers)


def main() -> None:
    path = program_in_folder(__doc__)
    os.chdir(ROOT)
    with tempfile.TemporaryDirectory() as room:
        program = Program(path, pathlib.Path(room))
        program.check_version()
        program.check_lines()
        program.check_output()
        program.check_costs()
        program.check_many_containers()
        program.check_deep_examples()
        program.check_examples()


if __name__ == "__main__":
    end_with(main)
