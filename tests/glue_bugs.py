#!/usr/bin/env python3
"""Plants each bug of tests/glue_bugs.rows alone in a copy, runs the tests of that language's values, and prints those
bugs that they don't notice.

    tests/glue_bugs.py            all languages, in some 20 processor minutes
    tests/glue_bugs.py go java    these

It tests over the libraries in dist/, and needs what the tests of these languages need.
"""

from __future__ import annotations

import argparse
import os
import pathlib
import re
import shutil
import sys
import tempfile
from collections.abc import Callable
from typing import NamedTuple

from harness import ROOT, Failed, Variables, Word, clean_up_on_sigterm, end_with, passed, run

ROWS = ROOT / "tests/glue_bugs.rows"


class Bug(NamedTuple):
    """A bug, and what it replaces in a file."""

    file: str
    old: str
    new: str

    def language(self) -> str:
        return self.file.split("/")[1]

    def planted_in(self, source: str) -> str:
        if source.count(self.old) != 1:
            raise Failed(f"{source.count(self.old)} places, and not one, in {self.file} have: {self.old}")
        return source.replace(self.old, self.new)


class Room(NamedTuple):
    """Copies of this repository's files and of the library of C, in which bugs are planted."""

    copy: pathlib.Path
    prefix: pathlib.Path
    out: pathlib.Path


class Uncompiled(Exception):
    """A bug doesn't compile, so it shows nothing about the tests."""


def compiled(*words: Word, folder: pathlib.Path = ROOT, variables: Variables | None = None) -> None:
    try:
        run(*words, folder=folder, variables=variables)
    except Failed as fault:
        raise Uncompiled(str(fault)) from None


def bugs() -> list[Bug]:
    """Those of a file come below its line, each with its old and its new text."""
    found = []
    for block in ROWS.read_text(encoding="utf-8").split("\nfile: ")[1:]:
        file, *lines = block.strip().split("\n")
        texts = [line.removeprefix(word) for line, word in zip(lines, ["old: ", "new: "] * len(lines))]
        if len(texts) % 2 or len("".join(texts)) + 5 * len(texts) != len("".join(lines)):
            raise Failed(f"{ROWS.name}: {file}: not lines old: and new: in turn")
        found += [Bug(file, *pair) for pair in zip(texts[::2], texts[1::2])]
    return found


def room_in(folder: pathlib.Path) -> Room:
    room = Room(folder / "copy", folder / "prefix", folder / "out")
    for name in run(
        "git", "ls-files", "bindings", "tests", "examples", "crates/test_codec", "crates/test_jobs"
    ).splitlines():
        (room.copy / name).parent.mkdir(parents=True, exist_ok=True)
        shutil.copy(ROOT / name, room.copy / name)
    run("bindings/c/build.sh", "--prefix", room.prefix, "--from", "dist/x86_64-linux")
    room.out.mkdir()
    return room


def table(room: Room, language: str, *driver: Word, variables: Variables | None = None) -> None:
    run(sys.executable, room.copy / "tests/rows/value_tables.py", language, *driver, variables=variables)


def test_python(room: Room) -> None:
    folder = room.copy / "bindings/python"
    variables: Variables = {"BCS_LIBRARY": str(room.prefix / "lib/libbcs.so"), "PYTHONPATH": str(folder)}
    python = ["/usr/bin/python3", "-B"]
    run(*python, folder / "tests/test_values.py", variables=variables)
    table(room, "python", *python, folder / "tests/driver.py", variables=variables)


def test_web(room: Room) -> None:
    wasm, tests = str(ROOT / "dist/web/bcs.wasm"), room.copy / "bindings/web/tests"
    table(room, "web", "node", tests / "driver.mjs", wasm)
    run("node", "--expose-gc", tests / "values.mjs", variables={"BCS_WASM": wasm})


def test_rust(room: Room) -> None:
    variables: Variables = {"BCS_LIB": str(room.prefix / "lib"), "CARGO_TARGET_DIR": str(room.out / "rust")}
    folder, options = room.copy / "bindings/rust", ["--quiet", "--offline", "--jobs", "2", "--all-features"]
    compiled("cargo", "build", *options, "--example", "rows", folder=folder, variables=variables)
    table(room, "rust", room.out / "rust/debug/examples/rows")
    run(
        "cargo", "test", *options, "--test", "serde_types", "--test", "serde_values", folder=folder, variables=variables
    )


def test_go(room: Room) -> None:
    folder = room.copy / "bindings/go"
    shutil.copy(room.prefix / "include/bcs.h", folder)
    shutil.copy(room.prefix / "lib/libbcs.a", folder / "libbcs_linux_amd64.a")
    tests = re.findall(r"^func (Test\w+)", (folder / "values_test.go").read_text(encoding="utf-8"), re.MULTILINE)
    variables: Variables = {"GOFLAGS": "-mod=mod", "GOPROXY": "off", "BCS_EXAMPLES": str(room.copy / "examples")}
    compiled("go", "build", "-p", "2", "-o", room.out / "go", "./driver", folder=folder, variables=variables)
    table(room, "go", room.out / "go")
    run("go", "test", "-p", "2", "-run", f"^({'|'.join(tests)})$", ".", folder=folder, variables=variables)


def test_java(room: Room) -> None:
    folder, made = room.copy / "bindings/java", room.out / "java"
    home = pathlib.Path(shutil.which("javac") or "").resolve().parent.parent
    compiled(folder / "build.sh", "--prefix", room.prefix, "--out", made, variables={"JAVA_HOME": str(home)})
    sources = [folder / f"tests/{name}.java" for name in ("Check", "Driver", "Samples", "ValueRows", "ValueTypes")]
    compiled("javac", "-cp", made / "bcsproved.jar", "-d", made, *sources)
    java = ["java", "-XX:+UseSerialGC", "-cp", f"{made}/bcsproved.jar:{made}"]
    table(room, "java", *java, "Driver")
    run(*java, "ValueTypes", room.copy / "examples")


TESTS: dict[str, Callable[[Room], None]] = {
    **{"python": test_python, "web": test_web, "rust": test_rust},
    **{"go": test_go, "java": test_java},
}


def fault_of(bug: Bug, room: Room) -> str:
    """What is wrong with the tests, or with the bug; nothing if the tests notice it."""
    file = room.copy / bug.file
    source = file.read_text(encoding="utf-8")
    file.write_text(bug.planted_in(source), encoding="utf-8")
    try:
        TESTS[bug.language()](room)
    except Failed:
        return ""
    except Uncompiled as fault:
        return f"it doesn't compile: {fault}"
    finally:
        file.write_text(source, encoding="utf-8")
    return "nothing notices"


def main() -> int:
    parser = argparse.ArgumentParser(description=__doc__, formatter_class=argparse.RawDescriptionHelpFormatter)
    parser.add_argument("language", nargs="*", help=", ".join(TESTS))
    languages = parser.parse_args().language or [*TESTS]
    clean_up_on_sigterm()
    os.chdir(ROOT)
    surviving = 0
    with tempfile.TemporaryDirectory() as folder:
        room = room_in(pathlib.Path(folder))
        for language in languages:
            TESTS[language](room)
            planted = [bug for bug in bugs() if bug.language() == language]
            unnoticed = 0
            for bug in planted:
                if fault := fault_of(bug, room):
                    unnoticed += 1
                    print(f"glue bugs: FAILED: {fault}: {bug.file}: {bug.new}", flush=True)
            passed(f"{language}: {len(planted) - unnoticed} of {len(planted)} bugs are noticed")
            surviving += unnoticed
    return 1 if surviving else 0


if __name__ == "__main__":
    end_with(main)
