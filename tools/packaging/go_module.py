"""The module for Go with the static libraries in it, and the library in C for other systems. The archive is a folder
that GOPROXY=file:// can name."""

from __future__ import annotations

import json
import pathlib
import time

import archives
import c_package
import facts

FOLDER = facts.ROOT / "bindings/go"
LIBRARIES = {"amd64": facts.NATIVE / "libbcs.a", "arm64": facts.ARM / "libbcs.a"}


def path() -> str:
    """The module's path, as go.mod has it."""
    return (FOLDER / "go.mod").read_text(encoding="utf-8").split()[1]


def in_c() -> archives.File:
    """The library in C, which Go compiles on the same condition on which link_c.go is a part of the module."""
    condition = (FOLDER / "link_c.go").read_text(encoding="utf-8").splitlines()[0]
    return archives.File(f"{condition}\n\n".encode() + c_package.library().data)


def contents(bill: archives.File, libraries: dict[str, pathlib.Path], source: archives.File | None) -> archives.Files:
    """The files of the module. Its tests and its driver read files of the repository, so they aren't included."""
    sources = [source for source in FOLDER.glob("*.go") if not source.name.endswith("_test.go")]
    files = {source.name: archives.taken(source) for source in [*sources, FOLDER / "go.mod"]}
    files["bcs.h"] = archives.taken(facts.ROOT / "bindings/c/include/bcs.h")
    for machine, library in libraries.items():
        files[f"libbcs_linux_{machine}.a"] = archives.taken(library)
    if source:
        files["bcs_library.c"] = source
    files["bcs-registry"] = archives.taken(facts.REGISTRY_COMMAND)
    files["README.md"] = archives.text(facts.readme("bindings/go"))
    files[f"{facts.NAME}.spdx.json"] = bill
    for name in facts.licence_files().values():
        files[name] = archives.taken(facts.ROOT / name)
    return files


def proxy(files: archives.Files) -> archives.Files:
    """What GOPROXY=file:// reads: the only version, its time, its go.mod, and its files."""
    version = f"v{facts.version()}"
    module = {f"{path()}@{version}/{name}": file for name, file in files.items()}
    about = {"Version": version, "Time": time.strftime("%Y-%m-%dT%H:%M:%SZ", time.gmtime(facts.EPOCH))}
    versions = f"{path()}/@v"
    return {
        f"{versions}/list": archives.text(f"{version}\n"),
        f"{versions}/{version}.info": archives.text(json.dumps(about) + "\n"),
        f"{versions}/{version}.mod": archives.taken(FOLDER / "go.mod"),
        f"{versions}/{version}.zip": archives.File(archives.zip(module)),
    }


def packed(files: archives.Files) -> dict[str, bytes]:
    name = f"{facts.NAME}-go-{facts.version()}"
    return {f"{name}.tar.gz": archives.gzipped(archives.tar(proxy(files), f"{name}/"))}


def make(bill: archives.File) -> dict[str, bytes]:
    return packed(contents(bill, LIBRARIES, in_c()))
