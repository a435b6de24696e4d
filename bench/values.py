#!/usr/bin/env python3
"""Times the calls of each language on values and on JSON: bench/values.py [--document] [--rounds N] [LANGUAGE..]

Prints two tables with the processor time of a call in C, Rust, Python, JavaScript, Go and Java: for
examples/aptos_transfer and a byte string of 1,000,000 bytes, and for a transfer that is refused, since its last byte is
missing or its last field is -4. With --document it replaces those of docs/BENCHMARKS.md.

The programs are in bench/languages: each makes its calls, and also encodes and decodes the same type by a codec that is
written by hand. On a busy machine times vary, so all programs run N times in turn (3 by default), and the least time
counts. The library is that of dist/ (or of BCS_PREFIX, where bindings/c/build.sh installed it), and the code around it
that of bindings/. It needs gcc, cargo with serde_json, Node, Go, a JDK, and this Python.
"""

from __future__ import annotations

import argparse
import os
import pathlib
import shutil
import subprocess
import sys
import tempfile
from collections.abc import Callable

from document import ROOT, provenance, table, tell

PROGRAMS = ROOT / "bench/languages"
EXAMPLES = ROOT / "examples"
HEADING, REFUSALS = "Values and JSON in each language", "Refused calls"
# What a row of the tables has, in each direction.
WAYS = ["values", "text", "plain"]
REFUSED = ["values", "values-refused", "text", "text-refused"]
# By the name of an input: its rows' name, and the microseconds of its unit.
INPUTS = {"transfer": ("transfer, µs", 1), "bytes": ("1 MB, ms", 1000)}

# The runs of each call in a program.
RUNS = 7
Times = dict[tuple[str, str, str], float]
Word = str | pathlib.Path


def run(*words: Word, where: pathlib.Path | None = None, **variables: str) -> str:
    done = subprocess.run([*map(str, words)], cwd=where, env=os.environ | variables, stdout=subprocess.PIPE, text=True)
    if done.returncode != 0:
        raise SystemExit(f"bench: {' '.join(map(str, words))} failed\n{done.stdout}")
    return done.stdout


class Room:
    """A folder in which the programs are built. It has the library of C."""

    def __init__(self, folder: pathlib.Path) -> None:
        self.folder = folder
        self.target = pathlib.Path(os.environ.get("CARGO_TARGET_DIR") or folder / "target")
        named = os.environ.get("BCS_PREFIX")
        self.prefix = pathlib.Path(named) if named else folder / "prefix"
        if not named:
            run(ROOT / "bindings/c/build.sh", "--from", ROOT / "dist/x86_64-linux", "--prefix", self.prefix)

    def c(self) -> list[Word]:
        options: list[Word] = ["-std=gnu11", "-O2", f"-I{self.prefix}/include", "-o", self.folder / "c"]
        run("gcc", *options, PROGRAMS / "c.c", self.prefix / "lib/libbcs.a", "-pthread")
        return [self.folder / "c"]

    def built(self, project: pathlib.Path, name: str) -> pathlib.Path:
        """The program of a project in Rust."""
        variables = {"BCS_LIB": str(self.prefix / "lib"), "CARGO_TARGET_DIR": str(self.target)}
        run("cargo", "build", "--quiet", "--release", where=project, **variables)
        return self.target / "release" / name

    def rust(self) -> list[Word]:
        return [self.built(PROGRAMS / "rust", "values")]

    def python(self) -> list[Word]:
        module = [f"PYTHONPATH={ROOT / 'bindings/python'}", f"BCS_LIBRARY={self.prefix / 'lib/libbcs.so'}"]
        return ["env", *module, sys.executable, PROGRAMS / "python.py"]

    def javascript(self) -> list[Word]:
        web = self.folder / "web"
        web.mkdir()
        for file in [ROOT / "dist/web/bcs.wasm", *(ROOT / "bindings/web").glob("*.mjs")]:
            shutil.copy(file, web)
        return ["node", PROGRAMS / "javascript.mjs", web]

    def go(self) -> list[Word]:
        module = self.folder / "go"
        shutil.copytree(ROOT / "bindings/go", module)
        shutil.copy(self.prefix / "include/bcs.h", module)
        shutil.copy(self.prefix / "lib/libbcs.a", module / "libbcs_linux_amd64.a")
        shutil.copytree(PROGRAMS / "go", module / "bench")
        options = {"GOPROXY": "off", "GOFLAGS": "-mod=mod", "GOTOOLCHAIN": "local", "CGO_ENABLED": "1"}
        run("go", "build", "-o", self.folder / "go_values", "./bench", where=module, **options)
        return [self.folder / "go_values"]

    def java(self) -> list[Word]:
        classes = self.folder / "java"
        run(ROOT / "bindings/java/build.sh", "--prefix", self.prefix, "--out", classes)
        jar = classes / "bcsproved.jar"
        run("javac", "-cp", jar, "-d", classes, PROGRAMS / "Values.java")
        return ["java", "-cp", f"{jar}:{classes}", "Values"]


# Builds the program of a language, and returns the command that runs it on the folder of examples.
LANGUAGES: dict[str, Callable[[Room], list[Word]]] = {
    "C": Room.c,
    "Rust": Room.rust,
    "Python": Room.python,
    "JavaScript": Room.javascript,
    "Go": Room.go,
    "Java": Room.java,
}


def times_of(command: list[Word], known: Times) -> Times:
    """The microseconds by input, direction and way: what the program prints, or less if that is known."""
    rows = [line.split() for line in run(*command, EXAMPLES).splitlines()]
    found = {(input, direction, way): float(time) for input, direction, way, time in rows}
    return {name: min(time, known.get(name, time)) for name, time in found.items()}


def shown(time: float | None) -> str:
    if time is None:
        return ""
    return f"{time:.0f}" if time >= 20 else f"{time:.1f}" if time >= 1 else f"{time:.2f}"


def row_of(times: Times, input: str, ways: list[str]) -> list[str]:
    """The cells of an input, in both directions."""
    found = [times.get((input, direction, way)) for direction in ["encode", "decode"] for way in ways]
    return [shown(time and time / INPUTS[input][1]) for time in found]


def heads(first: list[str], ways: list[str]) -> list[str]:
    return [*first, *(f"{direction}: {way}" for direction in ["encode", "decode"] for way in ways)]


def tell_all(all_times: dict[str, Times], runs: int, load: list[float], into_document: bool) -> None:
    said = f"{provenance('values.py', load)}: processor time of a call with an open registry, the least of {runs} runs."
    rows = [
        [INPUTS[input][0], language, *row_of(times, input, WAYS)]
        for input in INPUTS
        for language, times in all_times.items()
    ]
    names = heads(["Input", "Language"], ["values", "JSON", "by hand"])
    tell(HEADING, said, table(names, rows), into_document)
    rows = [[language, *row_of(times, "transfer", REFUSED)] for language, times in all_times.items()]
    names = heads(["Language"], ["values", "refused", "JSON", "refused"])
    tell(REFUSALS, f"{said[:-1]}, in µs.", table(names, rows), into_document)


def main() -> None:
    parser = argparse.ArgumentParser(description=__doc__, formatter_class=argparse.RawDescriptionHelpFormatter)
    parser.add_argument("--document", action="store_true")
    parser.add_argument("--rounds", type=int, default=3)
    parser.add_argument("languages", nargs="*", choices=[[], *LANGUAGES])
    words = parser.parse_args()
    names, load = words.languages or list(LANGUAGES), [os.getloadavg()[0]]
    all_times: dict[str, Times] = {name: {} for name in names}
    with tempfile.TemporaryDirectory() as folder:
        room = Room(pathlib.Path(folder))
        commands = {name: LANGUAGES[name](room) for name in names}
        for number in range(words.rounds):
            for name, command in commands.items():
                print(f"bench: round {number + 1}, {name}", file=sys.stderr, flush=True)
                all_times[name] = times_of(command, all_times[name])
                load.append(os.getloadavg()[0])
    tell_all(all_times, words.rounds * RUNS, load, words.document)


if __name__ == "__main__":
    main()
