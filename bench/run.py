#!/usr/bin/env python3
"""Times a program on the jobs of the benchmark, beside the plain one: run.py INPUTS BCS [PLAIN]. Prints a table. The
floor is what the plain program takes to read the job's inputs and do nothing else: `serde_json` for JSON, one pass over
bytes."""

from __future__ import annotations

import sys
from collections.abc import Iterator
from pathlib import Path
from typing import NamedTuple

from usage import Usage, measure

RUNS = 3


class Job(NamedTuple):
    """The arguments of a job, the file of its input, and the file to store its output in."""

    name: str
    words: list[str]
    source: Path | None
    kept: Path | None = None


def jobs(folder: Path) -> Iterator[Job]:
    registry = str(folder / "registry.json")
    for name in ["number", "records", "numbers", "map", "bytes"]:
        format = (folder / f"{name}.format").read_text()
        text, digits = folder / f"{name}.json", folder / f"{name}.hex"
        yield Job(f"encode {name}", ["encode", registry, format], text, digits)
        yield Job(f"decode {name}", ["decode", registry, format], digits)
        yield Job(f"explain {name}", ["explain", registry, format], digits)
        yield Job(f"normalise {name}", ["normalise", registry, format], text)
    format = (folder / "map.format").read_text()
    again = str(folder / "map_again.json")
    key = "key:" + (b"\x0akey 299999").hex()
    yield Job("same map", ["same", registry, format, again], folder / "map.json")
    yield Job("part map", ["part", registry, format, key], folder / "map.hex")
    yield Job("scan --raw options", ["scan", "--raw", "{}", '{"SEQ":{"OPTION":"U8"}}'], folder / "options.bin")
    yield Job("check containers", ["check", str(folder / "containers.json")], None)


def fastest(words: list[str], source: Path | None, kept: Path | None = None) -> Usage | None:
    """The cost of the fastest run; None if the program fails."""
    costs = [cost for _ in range(RUNS) if (cost := measure(words, source, kept))]
    return min(costs) if len(costs) == RUNS else None


def floor(plain: str, job: Job) -> float:
    """The least processor seconds that the job's inputs can take."""
    inputs = [Path(word) for word in job.words if word.endswith(("containers.json", "map_again.json"))]
    if job.source:
        inputs.append(job.source)
    spent = 0.0
    for path in inputs:
        cost = fastest([plain, "parse" if path.suffix == ".json" else "pass"], path)
        if cost is None:
            raise SystemExit(f"run: the plain program fails to read {path}")
        spent += cost.processor
    return spent


def cells(cost: Usage | None, size: int) -> str:
    if cost is None:
        return "none | | |"
    if not cost.processor:
        return "0 | | |"
    return f"{cost.processor:.3f} | {cost.wall:.3f} | {size / 1e6 / cost.processor:.0f} | {cost.memory:.0f}"


def main() -> None:
    folder, programs = Path(sys.argv[1]), sys.argv[2:]
    columns = [f"{Path(program).name}: processor s | s | MB/s | MiB" for program in programs]
    print("| Job | Input, MB | " + " | ".join(columns) + " | floor |")
    print("|---|---|" + "---|" * (4 * len(programs) + 1))
    for job in jobs(folder):
        size = (job.source or folder / "containers.json").stat().st_size
        costs = [cells(fastest([program, *job.words], job.source, job.kept), size) for program in programs]
        least = f"{floor(programs[1], job):.3f}" if len(programs) > 1 else ""
        print(f"| {job.name} | {size / 1e6:.1f} | " + " | ".join(costs) + f" | {least} |", flush=True)


if __name__ == "__main__":
    main()
