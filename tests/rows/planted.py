"""Asks a driver the rows on places while the answers of one call are changed on their way.

Each row for which an answer was changed has to be found wrong.

    python3 tests/rows/planted.py DRIVER [WORD]...
"""

import contextlib
import io
import sys

from driver import Answer, Driver
from places import KINDS, has_place, place_told_row
from tests import Tally, rows_of_tests


class Planted(Driver):
    """Puts a sign before what one call tells."""

    def __init__(self, command: list[str], call: str, what: str) -> None:
        super().__init__(command)
        self.call, self.what, self.changed = call, what, 0

    def ask(self, call: str, *words: str | bytes) -> Answer:
        answer = super().ask(call, *words)
        if call != self.call or words[-1] != self.what or answer.status != "done":
            return answer
        self.changed += 1
        return answer._replace(length=answer.length + 1, output=b"x" + answer.output)


def are_found(driver: Planted) -> bool:
    tally = Tally()
    with contextlib.redirect_stdout(io.StringIO()):
        for row in rows_of_tests():
            if row.kind == "bcs" and has_place(row.kind, row.words, row.wanted):
                tally.judge("places", row.name, lambda: place_told_row(driver, row.words, row.wanted), row.wanted)
    driver.end()
    print(f"planted: {driver.call} {driver.what}: {driver.changed} answers changed, {tally.failed} rows found wrong")
    return tally.failed == driver.changed > 0


def main(words: list[str]) -> int:
    if not words:
        print(__doc__, file=sys.stderr)
        return 3
    calls = [
        (call, what) for call in KINDS if call not in ("modules_place", "pair_place") for what in ("where", "wanted")
    ]
    found = [are_found(Planted(words, call, what)) for call, what in calls]
    return 0 if all(found) else 1


if __name__ == "__main__":
    sys.exit(main(sys.argv[1:]))
