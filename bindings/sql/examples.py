"""Runs the statements of a README that are followed by a result, `select ..; -- result`, and compares.

    /usr/bin/python3 bindings/sql/examples.py sqlite EXTENSION README
    /usr/bin/python3 bindings/sql/examples.py postgresql CONNECTION README
"""

from __future__ import annotations

import pathlib
import re
import sys

from driver import Answered, Database, connected


def result(database: Database, statement: str) -> str:
    try:
        value = database.value(statement.removeprefix("select "))
    except Answered as refused:
        return f"error: {refused.args[1]}"
    if isinstance(value, bool):  # as psql prints it
        return "t" if value else "f"
    return "null" if value is None else str(value)


def main() -> int:
    kind, where, readme = sys.argv[1:]
    database = connected(kind, where)
    rows = re.findall(r"^(select .*); +-- (.*)$", pathlib.Path(readme).read_text(encoding="utf-8"), re.MULTILINE)
    wrong = 0
    for statement, expected in rows:
        found = result(database, statement)
        if found != expected:
            wrong += 1
            print(f"examples: FAILED: {statement}\n  expected {expected}\n  result   {found}")
    print(f"examples: {len(rows) - wrong} passed, {wrong} failed")
    return 1 if wrong or not rows else 0


if __name__ == "__main__":
    sys.exit(main())
