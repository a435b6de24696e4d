"""The wheels: the Python module with its dynamic library, for each kind of machine with Linux and for Windows."""

from __future__ import annotations

import base64
import hashlib
import pathlib
import tomllib
from typing import Any

import archives
import facts


def project() -> dict[str, Any]:
    """What bindings/python/pyproject.toml says."""
    with (facts.ROOT / "bindings/python/pyproject.toml").open("rb") as file:
        found: dict[str, Any] = tomllib.load(file)["project"]
    return found


def platforms() -> dict[str, pathlib.Path]:
    """The library of each platform. manylinux_X_Y: the wheel runs with the C library of version X.Y and later ones."""
    found = {"win_amd64": facts.WINDOWS / "bcs.dll"}
    for machine in facts.MACHINES:
        library = machine.folder / "libbcs.so"
        major, minor, *_ = facts.glibc_needed(library)
        # (no earlier one is a name that pip knows)
        found[f"manylinux_{major}_{max(minor, 5)}_{machine.processor}"] = library
    return found


COMMAND = "bcs-registry = bcs_proved.registries:main"


def metadata(told: dict[str, Any]) -> str:
    """In a version that Debian 12 reads. From 2.4 on the licence would be a License-Expression."""
    lines = [
        "Metadata-Version: 2.1",
        f"Name: {told['name']}",
        f"Version: {facts.version()}",
        f"Summary: {told['description']}",
        f"Author-email: {facts.MAINTAINER}",
        f"License: {facts.licence()}",
        *[f"License-File: {name}" for name in facts.licence_files().values()],
        f"Keywords: {','.join(told['keywords'])}",
        *[f"Classifier: {classifier}" for classifier in told["classifiers"]],
        f"Requires-Python: {told['requires-python']}",
        "Provides-Extra: yaml",
        'Requires-Dist: PyYAML; extra == "yaml"',
        "Description-Content-Type: text/markdown",
    ]
    return "\n".join(lines) + "\n\n" + facts.readme("bindings/python")


def record(files: archives.Files, own_name: str) -> str:
    """The list of all files with their checksums, in which the list itself has none."""
    lines = []
    for name in sorted(files):
        checksum = base64.urlsafe_b64encode(hashlib.sha256(files[name].data).digest()).decode().rstrip("=")
        lines.append(f"{name},sha256={checksum},{len(files[name].data)}\n")
    return "".join(lines) + f"{own_name},,\n"


def sources() -> archives.Files:
    """The module's folder, and those in it."""
    folder = facts.ROOT / "bindings/python" / project()["name"]
    paths = [path for path in folder.rglob("*") if path.suffix in (".py", ".typed")]
    return {path.relative_to(folder.parent).as_posix(): archives.taken(path) for path in paths}


def module(library: pathlib.Path) -> archives.Files:
    """The same, with a library in it."""
    return sources() | {f"{project()['name']}/{library.name}": archives.taken(library)}


def make_for(platform: str, library: pathlib.Path, bill: archives.File) -> dict[str, bytes]:
    told, tag = project(), f"py3-none-{platform}"
    information = f"{told['name']}-{facts.version()}.dist-info"
    wheel = f"Wheel-Version: 1.0\nGenerator: tools/packages.py\nRoot-Is-Purelib: false\nTag: {tag}\n"
    files = module(library) | {
        f"{information}/METADATA": archives.text(metadata(told)),
        f"{information}/WHEEL": archives.text(wheel),
        f"{information}/entry_points.txt": archives.text(f"[console_scripts]\n{COMMAND}\n"),
        f"{information}/sboms/{facts.NAME}.spdx.json": bill,
    }
    for name in facts.licence_files().values():
        files[f"{information}/licenses/{name}"] = archives.taken(facts.ROOT / name)
    own_name = f"{information}/RECORD"
    files[own_name] = archives.text(record(files, own_name))
    return {f"{told['name']}-{facts.version()}-{tag}.whl": archives.zip(files)}


def make(bill: archives.File) -> dict[str, bytes]:
    wheels: dict[str, bytes] = {}
    for platform, library in platforms().items():
        wheels |= make_for(platform, library, bill)
    return wheels
