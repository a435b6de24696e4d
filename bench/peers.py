#!/usr/bin/env python3
"""Times `bcs` and other programs on transactions like `examples/aptos_transfer.json`, one a line: bench/peers.py
[--count N] [--rounds N] [--document]. Each program runs once in each round, and its least processor time counts.

Prints a table. With --document, it replaces the one of docs/BENCHMARKS.md, and docs/peers.svg shows it. With --check
nothing runs: it fails if the picture doesn't show the table.

It needs cargo with serde_json and serde_derive, Node, orjson, jq and protoc. A program that makes BCS must make that of
`bcs`, and JSON that `bcs` encodes to the same.
"""

from __future__ import annotations

import argparse
import filecmp
import json
import os
import random
import sys
import tempfile
from collections.abc import Iterator
from pathlib import Path
from typing import Any, NamedTuple

from document import ROOT, provenance, table, table_of, tell
from peers_picture import PICTURE, picture
from usage import measure_success
from values import PROGRAMS, Room, Word, run

HEADING = "Beside other programs"
JOBS = ["encode", "decode", "normalise"]
REGISTRY = ROOT / "examples/aptos_registry.json"
OCTETS = ["sender", "address", "args"]


class Run(NamedTuple):
    words: list[str]
    source: Path


def transfers(count: int) -> Iterator[dict[str, Any]]:
    """Transactions that differ in sender, sequence number, receiver and amount."""
    chance, example = random.Random(7), json.loads((ROOT / "examples/aptos_transfer.json").read_text())
    for number in range(count):
        example["sender"] = chance.randbytes(32).hex()
        example["sequence_number"] = number
        example["payload"]["EntryFunction"]["args"] = [
            chance.randbytes(32).hex(),
            chance.randrange(10**9).to_bytes(8, "little").hex(),
        ]
        yield example


def line(value: dict[str, Any]) -> str:
    return json.dumps(value, separators=(",", ":")) + "\n"


def protocol_text(name: str, value: Any) -> str:
    """A member in the text format of protocol buffers."""
    if isinstance(value, list):
        return " ".join(protocol_text(name, item) for item in value)
    if isinstance(value, dict):
        return f"{name} {{ {' '.join(protocol_text(*member) for member in value.items())} }}"
    if name in OCTETS:
        return f'{name}: "{"".join(f"{chr(92)}x{byte:02x}" for byte in bytes.fromhex(value))}"'
    return f"{name}: {json.dumps(value)}"


class Peers:
    """What runs, with its inputs in a folder."""

    def __init__(self, room: Room, count: int) -> None:
        self.folder, self.count = room.folder, count
        self.texts, self.digits = self.folder / "transfers.jsonl", self.folder / "transfers.hex"
        self.texts.write_text("".join(map(line, transfers(count))))
        self.bcs = run(ROOT / "bcs", "--where").strip()
        self.encode(self.texts, self.digits)
        chain: list[Word] = ["--lines", REGISTRY, "RawTransaction"]
        self.makers = {
            "`bcs`": self.by_lines([self.bcs], chain),
            "Rust, any registry": self.by_lines([room.built(ROOT / "bench/plain", "plain")], chain),
            "Rust, this type": self.by_lines([*room.rust(), "--lines"]),
            "Node, this type": self.by_lines(["node", PROGRAMS / "lines.mjs"]),
            "Python, this type": self.by_lines([sys.executable, PROGRAMS / "lines.py"]),
        }
        self.others = {"`jq -c .`": {"normalise": Run(["jq", "-c", "."], self.texts)}, "`protoc`": self.protocol(count)}

    def encode(self, source: Path, kept: Path) -> None:
        measure_success([self.bcs, "encode", "--lines", str(REGISTRY), "RawTransaction"], source, kept)

    def by_lines(self, before: list[Word], after: list[Word] | None = None) -> dict[str, Run]:
        sources = {"decode": self.digits}
        return {job: Run([*map(str, [*before, job, *(after or [])])], sources.get(job, self.texts)) for job in JOBS}

    def protocol(self, count: int) -> dict[str, Run]:
        text, binary = self.folder / "transfers.txt", self.folder / "transfers.binary"
        text.write_text("\n".join(protocol_text("all", value) for value in transfers(count)))
        words = ["protoc", f"-I{ROOT / 'bench'}", str(ROOT / "bench/transfers.proto")]
        runs = {job: Run([*words, f"--{job}=Transfers"], source) for job, source in zip(JOBS, [text, binary])}
        measure_success(*runs["encode"], binary)
        return runs

    def check(self) -> None:
        """Fails if a program doesn't make the bytes of `bcs`, or JSON of the same values."""
        kept, again = self.folder / "kept", self.folder / "again"
        for name, runs in self.makers.items():
            for job, (words, source) in runs.items():
                measure_success(words, source, kept)
                if job != "encode":
                    self.encode(kept, again)
                if not filecmp.cmp(kept if job == "encode" else again, self.digits, shallow=False):
                    raise SystemExit(f"peers: {name}: {job}: not the bytes of bcs")

    def times(self, rounds: int, load: list[float]) -> dict[str, dict[str, float]]:
        """The least processor seconds by program and job."""
        all_runs = self.makers | self.others
        found: dict[str, dict[str, float]] = {name: {} for name in all_runs}
        for _ in range(rounds):
            for name, runs in all_runs.items():
                for job, (words, source) in runs.items():
                    spent = measure_success(words, source).processor
                    found[name][job] = min(spent, found[name].get(job, spent))
            load.append(os.getloadavg()[0])
        return found

    def row(self, name: str, times: dict[str, float]) -> list[str]:
        """A program's name, and the microseconds of a transaction and MB/s of each job."""
        cells = [name]
        for job in JOBS:
            run, spent = (self.makers | self.others)[name].get(job), times.get(job, 0)
            speed = f"{run.source.stat().st_size / 1e6 / spent:.0f}" if run else ""
            cells += [f"{spent / self.count * 1e6:.1f}" if run else "", speed]
        return cells


def main() -> None:
    parser = argparse.ArgumentParser(description=__doc__, formatter_class=argparse.RawDescriptionHelpFormatter)
    parser.add_argument("--count", type=int, default=100_000)
    parser.add_argument("--rounds", type=int, default=5)
    parser.add_argument("--document", action="store_true")
    parser.add_argument("--check", action="store_true")
    words = parser.parse_args()
    if words.check:
        if PICTURE.read_text() != picture(table_of(HEADING)):
            raise SystemExit(f"peers: {PICTURE} doesn't show the table of docs/BENCHMARKS.md")
        print("peers: the picture shows the table")
        return
    load = [os.getloadavg()[0]]
    with tempfile.TemporaryDirectory() as folder:
        peers = Peers(Room(Path(folder)), words.count)
        peers.check()
        rows = [peers.row(name, times) for name, times in peers.times(words.rounds, load).items()]
    said = f"{provenance('peers.py', load)}: processor time of a transaction, if {words.count:,} are read from a file"
    heads = ["Program", *(f"{job}: {unit}" for job in JOBS for unit in ["µs", "MB/s"])]
    tell(HEADING, f"{said}; the least of {words.rounds} runs.", table(heads, rows), words.document)
    if words.document:
        PICTURE.write_text(picture(table_of(HEADING)))


if __name__ == "__main__":
    main()
