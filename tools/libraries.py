#!/usr/bin/env python3
"""Prints the toolchain's libraries that `bcs` and `libbcs` use, a line for each. Separated by tabs it contains the
library's name, the version of the Rust crate that it is a port of, and its licence as an SPDX expression. If the
toolchain's files don't name one of these, it is `-`.
"""

from __future__ import annotations

import pathlib
import re

import toolchain

# how the text of a licence begins
TITLES = {"Apache License": "Apache-2.0", "Permission is hereby granted": "MIT", "Boost Software License": "BSL-1.0"}


def used_by_crates() -> dict[str, list[str]]:
    """What each crate of this repository uses, according to crates.txt."""
    lines = (toolchain.ROOT / "crates.txt").read_text(encoding="utf-8").splitlines()
    parts = [line.partition(":") for line in lines if line and not line.startswith("#")]
    return {left.split()[0]: right.split() for left, _, right in parts}


def libraries() -> list[str]:
    """What `bcs` and `bcs_c` use, directly or not, and what isn't a crate of this repository."""
    own, found, asked = used_by_crates(), set[str](), ["bcs", "bcs_c", "std"]
    while asked:
        name = asked.pop()
        if name not in found:
            found.add(name)
            asked += own[name] if name in own else used_by_library(name)
    return sorted(found - own.keys())


def used_by_library(name: str) -> list[str]:
    described = (toolchain.folder() / f"rlibs/{name}.rlib/format").read_text(encoding="utf-8")
    return re.findall(r"^dep (\w+)$", described, flags=re.M)


def version_and_licence(folder: pathlib.Path) -> tuple[str, str]:
    page = folder / "README.md"
    text = page.read_text(encoding="utf-8") if page.exists() else ""
    # "the Rust crate `ryu` 1.0.23 (Apache-2.0 or BSL-1.0, `LICENSE`)"; if a page names two, both licences apply
    ported = re.findall(r"Rust crate `([\w-]+)` ([0-9.]*[0-9])(?: \(([A-Z][^,;)]*))?", text)
    version = next((version for name, version, _ in ported if name == folder.name), "-")
    named = [licence.replace(" or ", " OR ").replace("Apache 2.0", "Apache-2.0") for _, _, licence in ported if licence]
    joined = " AND ".join(f"({licence})" if len(named) > 1 and " OR " in licence else licence for licence in named)
    return version, joined or licence_of_files(folder)


def licence_of_files(folder: pathlib.Path) -> str:
    """The licences whose texts are there. You may choose one of them, as is usual with two such files."""
    texts = [file.read_text(encoding="utf-8") for file in sorted(folder.glob("LICENSE*"))]
    found = {TITLES[title] for text in texts for title in TITLES if title in text[:2000]}
    return " OR ".join(sorted(found)) or "-"


def main() -> None:
    for name in libraries():
        print(name, *version_and_licence(toolchain.folder() / "rattle" / name), sep="\t")


if __name__ == "__main__":
    main()
