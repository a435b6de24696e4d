#!/usr/bin/env python3
"""Times `bcs encode` on documents that it refuses: bench/refusals.py [--count N] [--rounds N] [--document].

Prints a table of the least processor time and the most memory, for N records of inputs.py, N pairs of numbers, and N
lines with a transaction, each of which has the fault. With --document, it replaces the table of docs/BENCHMARKS.md. The
table of refused calls in each language is made by values.py."""

from __future__ import annotations

import argparse
import copy
import json
import multiprocessing
import os
import random
import tempfile
from collections.abc import Callable
from pathlib import Path
from typing import Any, NamedTuple

import inputs
from document import ROOT, provenance, table, tell
from peers import REGISTRY, transfers
from usage import measure
from values import run

HEADING = "Refused documents"
REFUSED = 2
PAIR = '{"Pair":{"STRUCT":[{"a":"U32"},{"b":"U32"}]}}'

Item = dict[str, Any]


def wrong(item: Item, name: str) -> Item:
    return item | {name: "wrong"}


def misspelt(item: Item, name: str) -> Item:
    return {key + "x" * (key == name): value for key, value in item.items()}


class Fault(NamedTuple):
    """What is wrong, and where: from 0, the start, to 1, the end."""

    title: str
    place: float = 0
    change: Callable[[Item, str], Item] | None = None
    is_broken: bool = False

    def changed(self, item: Item) -> Item:
        """The item with a wrong member at the place."""
        return self.change(item, [*item][round(self.place * (len(item) - 1))]) if self.change else item

    def text(self, value: Any) -> str:
        text = json.dumps(value, separators=(",", ":"))
        return text[:-1] + "x" if self.is_broken else text

    def listed(self, items: list[Item]) -> str:
        at = round(self.place * (len(items) - 1))
        return self.text([*items[:at], self.changed(items[at]), *items[at + 1 :]])

    def by_lines(self, items: list[Item]) -> str:
        return "".join(f"{self.text(self.changed(item))}\n" for item in items)


FAULTS = [
    Fault("none: accepted"),
    Fault("wrong value at the start", 0, wrong),
    Fault("in the middle", 0.5, wrong),
    Fault("at the end", 1, wrong),
    Fault("misspelt field at the end", 1, misspelt),
    Fault("not JSON at the end", is_broken=True),
]


class Document(NamedTuple):
    title: str
    words: list[str]
    written: Callable[[Fault, list[Item]], str] = Fault.listed


def documents(folder: Path) -> list[Document]:
    return [
        Document("records", ["encode", str(folder / "registry.json"), json.dumps(inputs.RECORDS)]),
        Document("pairs", ["encode", PAIR, '{"SEQ":{"TYPENAME":"Pair"}}']),
        Document("lines", ["encode", "--lines", str(REGISTRY), "RawTransaction"], Fault.by_lines),
    ]


def write(folder: Path, fault: Fault, count: int) -> None:
    chance = random.Random(20261123)
    items = {
        "records": (inputs.record(chance, number) for number in range(count)),
        "pairs": ({"a": chance.randrange(2**32), "b": number} for number in range(count)),
        "lines": (copy.deepcopy(value) for value in transfers(count)),
    }
    for document in documents(folder):
        (folder / document.title).write_text(document.written(fault, list(items[document.title])))


def cells(program: str, fault: Fault, folder: Path, words: argparse.Namespace) -> list[str]:
    """Microseconds an item, and memory. Another process writes the documents: a child begins with this one's memory."""
    writer = multiprocessing.Process(target=write, args=(folder, fault, words.count))
    writer.start()
    writer.join()
    status, made = REFUSED if fault.change or fault.is_broken else 0, []
    for document in documents(folder):
        command = [program, *document.words]
        costs = [measure(command, folder / document.title, None, status) for _ in range(words.rounds)]
        found = [cost for cost in costs if cost]
        if len(found) < words.rounds:
            raise SystemExit(f"refusals: {document.title}: {fault.title}: not status {status}")
        spent = min(cost.processor for cost in found) / words.count
        made += [f"{spent * 1e6:.1f}", f"{max(cost.memory for cost in found):.0f}"]
    return made


def main() -> None:
    parser = argparse.ArgumentParser(description=__doc__, formatter_class=argparse.RawDescriptionHelpFormatter)
    parser.add_argument("--count", type=int, default=100_000)
    parser.add_argument("--rounds", type=int, default=5)
    parser.add_argument("--document", action="store_true")
    words = parser.parse_args()
    program, load = run(ROOT / "bcs", "--where").strip(), [os.getloadavg()[0]]
    with tempfile.TemporaryDirectory() as name:
        folder, rows = Path(name), []
        inputs.write_formats(folder)
        for fault in FAULTS:
            rows.append([fault.title, *cells(program, fault, folder, words)])
            load.append(os.getloadavg()[0])
    said = f"{provenance('refusals.py', load)}: processor time of an item, if {words.count:,} are encoded"
    heads = [f"{document.title}: {unit}" for document in documents(folder) for unit in ["µs", "MiB"]]
    tell(HEADING, f"{said}; the least of {words.rounds} runs.", table(["Fault", *heads], rows), words.document)


if __name__ == "__main__":
    main()
