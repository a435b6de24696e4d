"""The tarball with everything: what is installed under a prefix, and the files for each language."""

from __future__ import annotations

import re

import archives
import facts
import installed
import node_package
import python_wheel
import rust_crate

README = """\
# bcs {version}: canonical bytes, proved

| Here | What it is |
|---|---|
| `bin/`, `share/` | the program `bcs`, its manual and its completions; `bcs-registry`, which converts registries |
| `include/`, `lib/` | the library of C, for Linux on x86-64; `PKG_CONFIG_PATH=lib/pkgconfig pkg-config --libs bcs` |
| `aarch64-linux/` | the program and the libraries for Linux on arm64, of which `include/` has the header |
| `x86_64-windows/` | the program and the dynamic library for Windows |
| `python/` | the module of Python with its library: `PYTHONPATH=python python3`, \
with test vectors for a registry by `python3 -m bcs_proved.vectors`; \
on arm64 set `BCS_LIBRARY=aarch64-linux/libbcs.so` too |
| `rust/` | the crate `bcs-proved`: `cargo add --path rust/bcs-proved-{version}` |
| `web/` | the module for Node and browsers, and the program for Node: `node web/bcs.mjs --help` |
| `page/` | the page, one file that works from the disk |
| `vectors/` | test vectors for Aptos, Sui and `every_format.json`, a registry with one of everything |

All of it works where it is unpacked. The licence is {licence}; `bcs.spdx.json` names all that it is made of.
"""


def under(folder: str, files: archives.Files) -> archives.Files:
    return {f"{folder}/{name}": file for name, file in files.items()}


def prefix() -> archives.Files:
    """A bcs.pc that names its own folder, so that the whole can be moved."""
    files = {name.removeprefix("opt/bcs/"): file for name, file in installed.files("/opt/bcs", "--no-record").items()}
    told = files["lib/pkgconfig/bcs.pc"].data.decode()
    files["lib/pkgconfig/bcs.pc"] = archives.text(re.sub(r"^prefix=.*", "prefix=${pcfiledir}/../..", told, flags=re.M))
    return files


def make(bill: archives.File) -> dict[str, bytes]:
    files = prefix()
    files |= under("aarch64-linux", archives.tree(facts.ARM))
    files |= under("x86_64-windows", archives.tree(facts.WINDOWS))
    files |= under("python", python_wheel.module(facts.NATIVE / "libbcs.so"))
    files |= under(f"rust/{rust_crate.name()}", rust_crate.contents(bill))
    files |= under("web", node_package.contents(bill))
    files |= under("vectors", archives.tree(facts.VECTORS))
    files["vectors/every_format.json"] = archives.taken(facts.ROOT / "examples/every_format.json")
    files["page/bcs.html"] = archives.taken(facts.WEB / "bcs.html")
    files["README.md"] = archives.text(README.format(version=facts.version(), licence=facts.licence()))
    files["bcs.spdx.json"] = bill
    for name in facts.licence_files().values():
        files[name] = archives.taken(facts.ROOT / name)
    name = f"bcs-{facts.version()}"
    return {f"{name}.tar.xz": archives.xz(archives.tar(files, f"{name}/"))}
