#!/usr/bin/env python3
"""tests/rings.py: whether each crate uses only crates of its own ring and of the rings that crates.txt names for it,
and whether crates.txt and crates/ name the same crates.

The exact contracts are those of the ring `core`. So it must not depend on display, of which little more is proved than
that it is safe and ends.
"""

from __future__ import annotations

import re

from harness import ROOT, Failed, arguments, end_with, report

RING = re.compile(r"## (\w+):((?: \w+)*)")


def rings_of(text: str) -> tuple[dict[str, str], dict[str, set[str]], dict[str, list[str]]]:
    """The ring of each crate, the rings that each ring may use, and what each crate uses, lines from top to bottom."""
    ring_of, allowed, uses, ring = dict[str, str](), dict[str, set[str]](), dict[str, list[str]](), ""
    for line in text.splitlines():
        if heading := RING.fullmatch(line):
            ring = heading[1]
            allowed[ring] = {ring, *heading[2].split()}
        elif line and not line.startswith("#"):
            name, _, used = line.partition(":")
            ring_of[name.split()[0]], uses[name.split()[0]] = ring, used.split()
    return ring_of, allowed, uses


def faults(text: str, folders: set[str]) -> list[str]:
    """What is wrong with the text of crates.txt, beside the names of the folders in crates/."""
    ring_of, allowed, uses = rings_of(text)
    wrong = [f"{crate} is in no ring" for crate, ring in ring_of.items() if not ring]
    wrong += [f"{name}: only one of crates.txt and crates/ has it" for name in sorted(ring_of.keys() ^ folders)]
    wrong += [
        f"ring {ring} may use {other}, which is no ring" for ring in allowed for other in allowed[ring] - allowed.keys()
    ]
    return wrong + [
        f"{crate} is in the ring {ring_of[crate]} and uses {other} of {ring_of[other]}"
        for crate, others in uses.items()
        for other in others
        if ring_of[crate] and other in ring_of and ring_of[other] not in allowed[ring_of[crate]]
    ]


def main() -> int:
    arguments(__doc__)
    text = (ROOT / "crates.txt").read_text(encoding="utf-8")
    ring_of, allowed, _ = rings_of(text)
    if "core" not in allowed or len(ring_of) < len(allowed):
        raise Failed("crates.txt has no ring core, or fewer crates than rings")
    for ring in allowed:
        print(f"{ring}: {sum(it == ring for it in ring_of.values())} crates")
    return report(len(ring_of), faults(text, {path.name for path in (ROOT / "crates").iterdir() if path.is_dir()}))


if __name__ == "__main__":
    end_with(main)
