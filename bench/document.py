"""The tables of docs/BENCHMARKS.md that scripts make."""

from __future__ import annotations

import datetime
import os
import re
import subprocess
from pathlib import Path

ROOT = Path(__file__).resolve().parent.parent
DOCUMENT = ROOT / "docs/BENCHMARKS.md"


def git(*words: str) -> str:
    return subprocess.run(["git", *words], cwd=ROOT, check=True, stdout=subprocess.PIPE, text=True).stdout.strip()


def provenance(script: str, load: list[float]) -> str:
    """When and on what a table was measured."""
    changes = " with changes" if git("status", "--porcelain", "bindings", "bench", "crates", "dist") else ""
    date, commit = datetime.datetime.now(datetime.timezone.utc).date(), git("rev-parse", "--short=8", "HEAD")
    busy = f"load of {os.cpu_count()} processors {min(load):.1f} to {max(load):.1f}"
    return f"`bench/{script}`, {date}, commit {commit}{changes}, {busy}"


def table(heads: list[str], rows: list[list[str]]) -> str:
    head, *others = [f"| {' | '.join(cells)} |" for cells in [heads, *rows]]
    return "\n".join([head, "|" + "---|" * len(heads), *others])


def section(heading: str) -> re.Match[str]:
    """A heading, the paragraph and the table below it."""
    shape = rf"^(##+ {re.escape(heading)}\n\n)([^\n]+)\n\n((?:\|[^\n]*\n)+)"
    found = re.search(shape, DOCUMENT.read_text(encoding="utf-8"), re.MULTILINE)
    if not found:
        raise SystemExit(f"bench: {DOCUMENT}: no table below {heading}")
    return found


def table_of(heading: str) -> list[list[str]]:
    """The cells of the rows below a table's head."""
    rows = [line.strip("| \n").split("|") for line in section(heading)[3].splitlines()[2:]]
    return [[cell.strip() for cell in row] for row in rows]


def tell(heading: str, paragraph: str, made: str, into_document: bool) -> None:
    """Prints a paragraph and its table, or replaces what the document has below the heading."""
    if not into_document:
        print(f"{paragraph}\n\n{made}", flush=True)
        return
    found = section(heading)
    text = found.string
    made = f"{text[: found.start()]}{found[1]}{paragraph}\n\n{made}\n{text[found.end():]}"
    DOCUMENT.write_text(made, encoding="utf-8")
