#!/usr/bin/env python3
"""Finds files that name another licence or version than the others do: same_packages.py [FOLDER].

The files are those of this repository, or of FOLDER. The licence is that of tools/packaging/licence, and the version is
the program's. It also fails if the text of a licence is missing.
"""

from __future__ import annotations

import pathlib
import re
import sys

sys.dont_write_bytecode = True
sys.path.insert(0, str(pathlib.Path(__file__).resolve().parent.parent / "tools/packaging"))
import facts  # noqa: E402 (the folder has to be known first)

DESCRIPTIONS = ["bindings/rust/Cargo.toml", "bindings/python/pyproject.toml", "bindings/web/package.json"]


def said(text: str, word: str) -> list[str]:
    """The values of a word in a description, as `license = ".."` or `"license": ".."`."""
    return re.findall(rf'^\s*"?{word}"? *[=:] *"([^"]*)"', text, flags=re.MULTILINE)


def differences(root: pathlib.Path) -> list[str]:
    found = []
    for name in DESCRIPTIONS:
        text = (root / name).read_text(encoding="utf-8")
        for word, expected in [("license", facts.licence()), ("version", facts.version())]:
            if said(text, word) != [expected]:
                found.append(f"{name} says the {word} {said(text, word)}, and not {expected}")
    if f"`{facts.licence()}`" not in (root / "README.md").read_text(encoding="utf-8"):
        found.append(f"README.md doesn't say `{facts.licence()}`")
    missing = [file for file in facts.licence_files().values() if not (root / file).is_file()]
    return found + [f"there is no {file}" for file in missing]


def main() -> None:
    found = differences(pathlib.Path(sys.argv[1]) if len(sys.argv) == 2 else facts.ROOT)
    if found:
        sys.exit("\n".join(found))
    print(f"{facts.licence()}, version {facts.version()}, in README.md and {len(DESCRIPTIONS)} descriptions")


if __name__ == "__main__":
    main()
