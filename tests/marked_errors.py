#!/usr/bin/env python3
"""Checks that a type checker rejects exactly the marked lines of files: marked_errors.py REPORT FILE..

REPORT is what the checker printed, `tsc --pretty false` or `mypy`. A marked line ends in `// error: TEXT` or
`# error: TEXT`, and what the checker says of this line must contain TEXT. It must reject no other line, in other files
either. The last line says how many lines were rejected.
"""

from __future__ import annotations

import pathlib
import re
import sys

MARK = re.compile(r"(?://|#) error: (.+)$")
REPORTED = re.compile(
    r"(?P<file>[^\s:(][^:(]*)[:(](?P<line>\d+)(?:,\d+\))?: (?P<kind>error|note)(?: TS\d+)?: (?P<words>.*)"
)


def marked(path: pathlib.Path) -> dict[int, str]:
    """The text of each line of a file that has one."""
    lines = enumerate(path.read_text(encoding="utf-8").splitlines(), 1)
    return {number: found[1] for number, line in lines if (found := MARK.search(line))}


def reported(report: str) -> dict[tuple[str, int], str]:
    """The error of each line, by the file's name. Indented lines continue an error."""
    found: dict[tuple[str, int], str] = {}
    at = None
    for line in report.splitlines():
        place = REPORTED.match(line)
        if place and place["kind"] == "error":
            at = (pathlib.Path(place["file"]).name, int(place["line"]))
            found[at] = found.get(at, "") + place["words"] + "\n"
        elif at and line.startswith(" "):
            found[at] += line + "\n"
        elif line and not place:
            sys.exit(f"marked_errors: this line of the report is neither an error nor a note: {line}")
    return found


def faults(report: str, paths: list[pathlib.Path]) -> list[str]:
    """Errors in lines without a mark, and marks without their error."""
    expected = {(path.name, number): text for path in paths for number, text in marked(path).items()}
    found = reported(report)
    unmarked = [
        f"{name}:{line}: has an error: {words}" for (name, line), words in found.items() if (name, line) not in expected
    ]
    missed = [
        f"{name}:{line}: expected the error {text!r}, found: {found.get((name, line), 'none')}"
        for (name, line), text in expected.items()
        if text not in found.get((name, line), "")
    ]
    return unmarked + missed


def main() -> None:
    if len(sys.argv) < 3:
        sys.exit(__doc__)
    paths = [pathlib.Path(name) for name in sys.argv[2:]]
    found = faults(pathlib.Path(sys.argv[1]).read_text(encoding="utf-8"), paths)
    if found:
        sys.exit("\n".join(found))
    print(f"{sum(len(marked(path)) for path in paths)} wrong lines are refused, and no others")


if __name__ == "__main__":
    main()
