"""The package for npm: the WebAssembly modules of the calls and of the program, the loader, and the types."""

from __future__ import annotations

import json
import sys
from typing import Any, Iterator

import archives
import facts


def named_files(part: Any) -> Iterator[str]:
    """The files that package.json names under `exports` and `bin`."""
    if isinstance(part, str):
        yield part.removeprefix("./")
    elif isinstance(part, dict):
        for inner in part.values():
            yield from named_files(inner)


def contents(bill: archives.File) -> archives.Files:
    """The files of the package, without the page, which contains the module once more, and the module for C."""
    left_out = {"bcs.html", "bcs_scalar.wasm.gz"}
    files = {name: file for name, file in archives.tree(facts.WEB).items() if name not in left_out}
    files["bcs-registry.py"] = archives.taken(facts.REGISTRY_COMMAND)
    described = archives.taken(facts.ROOT / "bindings/web/package.json")
    files["package.json"] = described
    files["README.md"] = archives.text(facts.readme("bindings/web"))
    files[f"{facts.NAME}.spdx.json"] = bill
    for name in facts.licence_files().values():
        files[name] = archives.taken(facts.ROOT / name)
    parts = json.loads(described.data)
    missing = sorted({*named_files(parts["exports"]), *named_files(parts["bin"])} - set(files))
    if missing:
        sys.exit(f"packages: bindings/web/package.json names what isn't in dist/web: {', '.join(missing)}")
    for name in named_files(parts["bin"]):
        files[name] = command(files[name])
    return files


def command(file: archives.File) -> archives.File:
    """A file that the system can start, which its first line has to say."""
    first = b"#!/usr/bin/env node\n"
    return archives.File(file.data if file.data.startswith(b"#!") else first + file.data, is_program=True)


def make(bill: archives.File) -> dict[str, bytes]:
    packed = archives.gzipped(archives.tar(contents(bill), "package/"))
    return {f"bcs-proved-{facts.version()}.tgz": packed}
