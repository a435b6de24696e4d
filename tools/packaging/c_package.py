#!/usr/bin/env python3
"""The package for every other system: the program and the library in C, which any compiler of C with POSIX makes.

tools/packaging/c_package.py DIST FOLDER makes a folder with its files from a folder as dist/, for tests.
"""

from __future__ import annotations

import functools
import gzip
import pathlib
import sys
import tempfile

import archives
import facts

FOLDER = facts.ROOT / "platforms/portable"
C = facts.ROOT / "bindings/c"
LIBRARY, PROGRAM = "web/bcs_scalar.wasm.gz", "web/bcs_program.wasm"
TESTS = ["calls.c", "handles.c", "threads.c", "checks.h", "questions.h"]
OWN_TESTS = ["rows.c", "stack.c"]

sys.path.insert(0, str(FOLDER))
import flat_rows  # noqa: E402 (the folder has to be known first)
import translation  # noqa: E402


@functools.cache
def library() -> archives.File:
    """bcs_library.c, which packages for Rust, Python and Go have too."""
    with tempfile.NamedTemporaryFile(suffix=".wasm") as module:
        module.write(gzip.decompress((facts.DIST / LIBRARY).read_bytes()))
        module.flush()
        return archives.text(translation.library(pathlib.Path(module.name), facts.licence()))


@functools.cache
def program() -> archives.File:
    return archives.text(translation.program(facts.DIST / PROGRAM, facts.licence()))


def tests() -> archives.Files:
    files = {f"tests/{name}": archives.taken(C / "tests" / name) for name in TESTS}
    files |= {f"tests/{name}": archives.taken(FOLDER / "tests" / name) for name in OWN_TESTS}
    rows = (facts.ROOT / "tests/rows/bcs.rows").read_text(encoding="utf-8")
    return files | {"tests/bcs.rows": archives.text(flat_rows.flat(rows))}


def contents(bill: archives.File) -> archives.Files:
    files = tests()
    files |= {"bcs.c": program(), "bcs_library.c": library()}
    files["include/bcs.h"] = archives.taken(C / "include/bcs.h")
    files["example.c"] = archives.taken(C / "example.c")
    for name in ["Makefile", "CMakeLists.txt", "Package.swift"]:
        files[name] = archives.taken(FOLDER / name)
    files["bcs-registry"] = archives.taken(facts.REGISTRY_COMMAND)
    page, stack = facts.section("docs/PLATFORMS.md", "C for other systems"), facts.section("docs/LIMITS.md", "Stack")
    files["README.md"] = archives.text(f"{page}\n#{stack}")
    files[f"{facts.NAME}.spdx.json"] = bill
    for name in facts.licence_files().values():
        files[name] = archives.taken(facts.ROOT / name)
    return files


def make(bill: archives.File) -> dict[str, bytes]:
    name = f"{facts.NAME}-{facts.version()}-c"
    return {f"{name}.tar.xz": archives.xz(archives.tar(contents(bill), f"{name}/"))}


def main() -> None:
    facts.DIST, folder = map(pathlib.Path, sys.argv[1:])
    archives.write(contents(archives.text("{}\n")), folder)


if __name__ == "__main__":
    main()
