"""The neutral twins of planted bugs: does the prover accept a correct body of the same shape?

If it doesn't, that it rejects the planted bug says nothing about the contract. `tests/twins/CRATE/NAME.twin` replaces
the same lines as `crates/CRATE/must-fail/NAME.edit`. A trial takes a copy of the crate, and proves the function whose
contract the planted bug breaks, over the libraries that `rt ci` left.
"""

from __future__ import annotations

import pathlib
import re
import shutil
import subprocess
import sys
import tempfile

from harness import ROOT, Failed, require

sys.path.insert(0, str(ROOT / "tools"))

import toolchain  # noqa: E402

TWINS = ROOT / "tests/twins"


class Change:
    """What an edit or a twin replaces: by file and line its new text."""

    def __init__(self, file: pathlib.Path) -> None:
        require(file.is_file(), f"{file.relative_to(ROOT)} is missing")
        self.new: dict[tuple[str, str], str] = {}
        path = old = ""
        for line in file.read_text(encoding="utf-8").splitlines():
            word, _, text = line.partition(": ")
            if word == "file":
                path = text
            elif word == "old":
                old = text
            elif word == "new":
                self.new[path, old] = text

    def apply(self, folder: pathlib.Path) -> None:
        for (path, old), new in self.new.items():
            file = folder / path
            text = file.read_text(encoding="utf-8")
            require(text.count(old) == 1, f"'{old}' is in {path} {text.count(old)} times")
            file.write_text(text.replace(old, new), encoding="utf-8")


def twin_of(edit: str) -> Change:
    """The twin of CRATE/NAME, which replaces what the edit replaces, with another text."""
    planted = Change((ROOT / "crates" / edit.replace("/", "/must-fail/")).with_suffix(".edit"))
    twin = Change((TWINS / edit).with_suffix(".twin"))
    require(bool(twin.new) and twin.new.keys() == planted.new.keys(), "the twin replaces other lines than the edit")
    require(twin.new != planted.new, "the twin is the edit")
    return twin


def prove(crate: toolchain.Crate, folder: pathlib.Path, function: str, kept: pathlib.Path) -> str:
    """Returns what is wrong with a function of the crate in a folder, or nothing. It keeps what it proved, and takes
    what an earlier trial of the crate kept."""
    command = [str(toolchain.folder() / "bin/rattle"), "check", "--only", function]
    ran = subprocess.run(
        [*toolchain.guarded(), *command, "--incremental", str(kept / crate.name), *crate.words(["--jobs", "1"])],
        cwd=folder,
        stdin=subprocess.DEVNULL,
        stdout=subprocess.PIPE,
        stderr=subprocess.STDOUT,
        text=True,
        errors="replace",
    )
    proved = re.search(r"^only=(\d+) proved=(\d+)\b.*\Z", ran.stdout.rstrip("\n"), flags=re.M)
    if ran.returncode == 0 and proved and proved[1] == proved[2] != "0":
        return ""
    told = [line for line in ran.stdout.splitlines() if "error" in line or line.startswith(("note: src", "rattle:"))]
    return f"the prover rejects the twin: {' '.join(told[:1])[:300]}"


def wrong_with(edit: str, function: str, kept: pathlib.Path) -> str:
    """What is wrong with the twin of CRATE/NAME, or nothing."""
    [crate] = toolchain.crates(ROOT / "crates" / edit.partition("/")[0])
    try:
        twin = twin_of(edit)
        with tempfile.TemporaryDirectory() as name:
            folder = pathlib.Path(name)
            for part in ("src", "specs", "proofs"):
                shutil.copytree(f"{crate.folder}/{part}", folder / part)
            twin.apply(folder)
            return prove(crate, folder, function, kept)
    except Failed as fault:
        return str(fault)


def without_row(edits: set[str]) -> list[str]:
    """The files in tests/twins that aren't the twin of one of these edits."""
    found = {str(file.relative_to(TWINS).with_suffix("")) for file in TWINS.rglob("*") if file.is_file()}
    return sorted(found - edits)
