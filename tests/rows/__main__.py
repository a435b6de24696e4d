"""Asks a driver the rows of crates/test_codec, crates/test_jobs and this folder, and checks its answers.

    python3 tests/rows [--without KIND]... NAME DRIVER [WORD]...

A driver is a program that makes the calls of one language. driver.py says which lines it reads and writes.
NAME is its name in the table `floors`, which has the number of rows that it must answer. crates/test_codec/README.md
and the comments at the top of tests/rows/bcs.rows say what a row means. Rows that no call can express are counted by
kind.
"""

import pathlib
import sys
from collections import Counter
from functools import partial

from contents import rows_of_contents
from driver import Driver
from explain_rows import rows_of_examples, rows_of_table, rows_of_views
from hostile import hostile_rows
from jobs import job_row
from kinds import KINDS
from modules import rows_of_modules
from named_parts import names_of_pieces, run_row
from pieces import pieces_of
from places import has_place, place_told_row, rows_of_names
from tests import ROOT, Tally, rows_of_tests
from value_tables import rows_of_values, tables_of
from values import encode_row
from views import told_of, views_row

FLOORS = pathlib.Path(__file__).resolve().parent / "floors"


def floor_of(name: str) -> int:
    """How many rows this driver must answer."""
    lines = (line.split() for line in FLOORS.read_text(encoding="utf-8").splitlines() if not line.startswith("#"))
    floors = {driver: int(number) for driver, number in lines}
    if floors.get(name, 0) < 1:
        raise SystemExit(f"rows: FAILED: tests/rows/floors has no number of rows for {name}")
    return floors[name]


def ask_rows(driver: Driver, tally: Tally, without: set[str]) -> None:
    kinds = {**KINDS, "bcs": job_row, "run": run_row, "encode": encode_row}
    for row in rows_of_tests():
        asked = kinds.get(row.kind)
        if asked is None:
            tally.unsayable[row.kind] += 1
            continue
        if row.kind in without:
            tally.skipped[row.kind] += 1
            continue
        tally.judge(row.kind, row.name, partial(asked, driver, row.registry, row.words, row.wanted), row.wanted)


def ask_places(driver: Driver, tally: Tally, without: set[str]) -> None:
    for row in rows_of_tests():
        if not has_place(row.kind, row.words, row.wanted):
            continue
        if "places" in without:
            tally.skipped["places"] += 1
        else:
            tally.judge("places", row.name, partial(place_told_row, driver, row.words, row.wanted), row.wanted)
    if "places" not in without:
        for name, asked in rows_of_names(driver):
            tally.judge("places", name, asked, "")


def ask_pieces(driver: Driver, tally: Tally) -> None:
    for row in [*rows_of_table(ROOT), *rows_of_examples(ROOT)]:
        tally.judge("pieces", row.name, partial(pieces_of, driver, row), row.wanted)
        tally.judge("names", row.name, partial(names_of_pieces, driver, row), "")


def ask_hostile_names(driver: Driver, tally: Tally) -> None:
    for name, asked in hostile_rows(driver):
        tally.judge("hostile names", name, asked, "")


def ask_views(driver: Driver, tally: Tally) -> None:
    for row in rows_of_views(ROOT):
        tally.judge("views", row.name, partial(views_row, driver, row), told_of(row))


def ask_contents(driver: Driver, tally: Tally) -> None:
    for name, asked in rows_of_contents(driver):
        tally.judge("contents", name, asked, "")


def ask_modules(driver: Driver, tally: Tally) -> None:
    for kind, name, asked in rows_of_modules(driver):
        tally.judge(kind, name, asked, "")


def ask_values(name: str, driver: Driver, tally: Tally, without: set[str]) -> None:
    for package, table in tables_of(name.removesuffix("64")).items():
        if package in without:
            tally.skipped[f"values of {package}"] += table.cell_count()
            continue
        for row in rows_of_values(driver, table):
            tally.judge("values", *row)


def told_by_kind(counts: Counter[str]) -> str:
    return ", ".join(f"{count} {kind}" for kind, count in sorted(counts.items()))


def are_enough(name: str, tally: Tally, floor: int) -> bool:
    """Whether the driver answered at least as many rows as the table says."""
    counted = tally.covered.total() + tally.skipped.total()
    if counted > floor:
        print(f"rows: {counted - floor} rows more than tests/rows/floors has for {name}: write {counted} there")
    if counted < floor:
        print(f"rows: FAILED: {floor - counted} rows fewer than tests/rows/floors has for {name}")
    return counted >= floor


def main(words: list[str]) -> int:
    without = set()
    while words[:1] == ["--without"]:
        without.add(words[1])
        words = words[2:]
    if len(words) < 2:
        print(__doc__, file=sys.stderr)
        return 3
    name, *command = words
    floor = floor_of(name)
    driver, tally = Driver(command), Tally()
    ask_rows(driver, tally, without)
    ask_places(driver, tally, without)
    ask_pieces(driver, tally)
    ask_hostile_names(driver, tally)
    ask_views(driver, tally)
    ask_contents(driver, tally)
    ask_modules(driver, tally)
    ask_values(name, driver, tally, without)
    driver.end()
    print(f"rows: asked: {told_by_kind(tally.covered)}")
    print(f"rows: not asked: {told_by_kind(tally.unsayable + tally.skipped)}")
    enough = are_enough(name, tally, floor)
    asked, others = tally.covered.total(), (tally.unsayable + tally.skipped).total()
    print(f"rows: {asked} rows in {driver.calls} calls, {tally.failed} of them wrong; {others} rows aren't asked")
    return 0 if enough and not tally.failed else 1


if __name__ == "__main__":
    sys.exit(main(sys.argv[1:]))
