"""What all packages say of themselves, each read from its one place."""

from __future__ import annotations

import os
import pathlib
import re
import subprocess
import sys
from typing import NamedTuple

ROOT = pathlib.Path(__file__).resolve().parent.parent.parent
DIST = ROOT / "dist"
NATIVE = DIST / "x86_64-linux"
ARM = DIST / "aarch64-linux"
WINDOWS = DIST / "x86_64-windows"
WEB = DIST / "web"
VECTORS = DIST / "vectors"
# The command that converts and merges registries, which every package has.
REGISTRY_COMMAND = ROOT / "bindings/python/bcs_proved/registries.py"

NAME = "bcs"
MAINTAINER = "Fodrascu maintainers <maintainers@users.noreply.fodrascu.example>"
COPYRIGHT = "2026 the bcs authors"
SUMMARY = "canonical bytes (BCS) by a registry of formats, proved"

# The time of all files in the packages, so that two runs give the same bytes: the first second of 2026.
EPOCH = int(os.environ.get("SOURCE_DATE_EPOCH", "1767225600"))


class Machine(NamedTuple):
    """A kind of machine: the folder of dist/ with its files, and what Debian calls it."""

    folder: pathlib.Path
    debian: str

    @property
    def processor(self) -> str:
        """Its name in Debian's folders and in the tags of wheels."""
        return self.folder.name.removesuffix("-linux")


MACHINES = [Machine(NATIVE, "amd64"), Machine(ARM, "arm64")]


class Library(NamedTuple):
    """A library of the toolchain that is in the program. What the toolchain doesn't tell of it is `-`."""

    name: str
    version: str
    licence: str

    def __str__(self) -> str:
        return " ".join(
            [self.name, *(word for word in [self.version, f"({self.licence})"] if word not in ["-", "(-)"])]
        )


def version() -> str:
    source = (ROOT / "crates/bcs_tool_command_line/src/version.rt").read_text(encoding="utf-8")
    found = re.search(r'VERSION[^"]*"([0-9.]+)', source)
    if not found:
        sys.exit("packages: crates/bcs_tool_command_line/src/version.rt has no version")
    return found[1]


def licence() -> str:
    return (ROOT / "tools/packaging/licence").read_text(encoding="utf-8").strip()


def licence_files() -> dict[str, str]:
    """The texts at the top of the repository, by the words of the licence: "MIT" is LICENSE-MIT."""
    words = re.split(r" OR | AND ", licence())
    return {word: f"LICENSE-{word.split('-')[0].upper()}" for word in words}


def libraries() -> list[Library]:
    lines = (DIST / "LIBRARIES").read_text(encoding="utf-8").splitlines()
    return [Library(*line.split("\t")) for line in lines]


def own_crates() -> dict[str, list[str]]:
    """The crates of this repository and what each uses, as crates.txt has them."""
    crates = {}
    for line in (ROOT / "crates.txt").read_text(encoding="utf-8").splitlines():
        if ":" in line and not line.startswith("#"):
            named, uses = line.split(":")
            crates[named.split()[0]] = uses.split()
    return crates


def glibc_needed(binary: pathlib.Path) -> tuple[int, ...]:
    """The oldest version of the C library that a program or a dynamic library runs with. It names each one it needs."""
    named = re.findall(rb"\0GLIBC_([0-9.]+)(?=\0)", binary.read_bytes())
    if not named:
        sys.exit(f"packages: {binary} names no version of the C library")
    return max(tuple(int(part) for part in version.split(b".")) for version in named)


def require_dist() -> None:
    """Ends unless dist/ was built from these sources and is whole, and is as in the last commit or signed."""
    checked = subprocess.run([ROOT / "tools/compare_dist.sh", "--committed"], stdout=subprocess.PIPE, text=True)
    if checked.returncode != 0:
        sys.exit(f"{checked.stdout}packages: nothing is made of such a dist/")


def readme(folder: str) -> str:
    """A README for a package: that of a folder, and the calls, refusals and stacks of all languages."""
    page = (ROOT / folder / "README.md").read_text(encoding="utf-8")
    titles = [("EMBEDDING", "The calls"), ("EMBEDDING", "What a refusal reports"), ("LIMITS", "Stack")]
    shared = [section(f"docs/{book}.md", title) for book, title in titles]
    return without_links("\n".join([page, *(f"#{text}" for text in shared)]))


def section(page: str, title: str) -> str:
    """A section of a page, as a page of its own for a package."""
    found = re.search(
        rf"^## ({re.escape(title)}\n.*?)(?=^## |\Z)", (ROOT / page).read_text(encoding="utf-8"), re.M | re.S
    )
    if not found:
        sys.exit(f"packages: {page} has no section {title}")
    return without_links(f"# {found[1].rstrip()}\n")


def without_links(page: str) -> str:
    """What the links of a page into the repository lead to isn't in a package, so their words stay alone."""
    page = re.sub(r"!\[[^]]*\]\((?!https?:)[^)]*\)\n*", "", page)
    return re.sub(r"\[([^]]+)\]\((?!https?:|#)[^)]*\)", r"\1", page)
