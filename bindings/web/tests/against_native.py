#!/usr/bin/env python3
"""Asks two drivers about the same changed texts and bytes, and compares their answers line by line.

    python3 bindings/web/tests/against_native.py COUNT DRIVER [WORD]... -- OTHER-DRIVER [WORD]...

tests/rows/driver.py says what a driver reads and writes. The inputs are values of examples/ and rows of
crates/test_codec with changes, which are the same in each run.
"""

from __future__ import annotations

import collections
import json
import pathlib
import random
import subprocess
import sys
import tempfile
from typing import NamedTuple

ROOT = pathlib.Path(__file__).resolve().parent.parent.parent.parent
LIMITS = ("500", "4294967295")
SIGNS = b'{}[]",:0123456789-abcdefnulltrues.E \\u'


class Seed(NamedTuple):
    """A value that is changed: its registry and format, its text and its bytes."""

    registry: bytes
    format: bytes
    text: bytes
    data: bytes


def example(registry: str, container: str, name: str) -> Seed:
    def read(file: str) -> bytes:
        return (ROOT / "examples" / file).read_bytes()

    format = json.dumps({"TYPENAME": container}).encode()
    return Seed(read(f"{registry}.json"), format, read(f"{name}.json"), bytes.fromhex(read(f"{name}.hex").decode()))


def rows() -> list[Seed]:
    """The rows `json` whose answer contains the bytes."""
    seeds, registry = [], b"{}"
    folder = ROOT / "crates/test_codec"
    lines = [(folder / name).read_text(encoding="utf-8").split("\n") for name in ("stdin", "stdout")]
    for row, told in zip(*lines):
        kind, *words = row.split("\t")
        if kind == "registry":
            registry = words[0].encode()
        answer = told[len(row) + len(" -> ") :]
        if kind == "json" and len(words) == 2 and answer.startswith("0x") and "*" not in row:
            data = bytes.fromhex(answer.split(" ")[0][2:])
            seeds.append(Seed(registry, words[0].encode(), words[1].encode(), data))
    return seeds


def changed(draw: random.Random, data: bytes, is_text: bool) -> bytes:
    """One to three changes: a byte replaced, put in or left out, a part doubled, or the end cut off."""
    out = bytearray(data)
    for _ in range(draw.randint(1, 3)):
        place = draw.randrange(len(out) + 1)
        odd = draw.choice([0, 1, 2, 0x7F, 0x80, 0xFF, draw.randrange(256)])
        byte = draw.choice(SIGNS) if is_text and draw.random() < 0.8 else odd
        match draw.randrange(5):
            case 0:
                out[place : place + 1] = [byte]
            case 1:
                out[place:place] = [byte]
            case 2:
                del out[place : place + draw.randint(1, 4)]
            case 3:
                end = place + draw.randint(1, 40)
                out[end:end] = out[place:end]
            case _ if draw.random() < 0.3:
                del out[place:]
    return bytes(out)


def line(draw: random.Random, seed: Seed) -> str:
    registry = seed.registry if draw.random() < 0.95 else changed(draw, seed.registry, is_text=True)
    asked = [registry.hex(), seed.format.hex(), *LIMITS]
    if draw.random() < 0.5:
        text = changed(draw, seed.text, is_text=True)
        call = draw.choice(["to_bcs", "to_bcs", "normalise", "compare"])
        words = [text.hex()] + ([seed.text.hex()] if call == "compare" else [])
    else:
        data = changed(draw, seed.data, is_text=False)
        call = draw.choice(["from_bcs", "from_bcs", "scan", "explain", "part"])
        more = {"explain": [draw.choice(["ways", "paths", "tree", "json"])], "part": [b"inner/0".hex()]}
        words = [data.hex(), *more.get(call, [])]
    return "\t".join([call, *asked, *words])


def answers(command: list[str], asked: str) -> list[str]:
    with tempfile.TemporaryFile("w+") as file:
        file.write(asked)
        file.seek(0)
        told = subprocess.run(command, stdin=file, stdout=subprocess.PIPE, text=True, check=True).stdout
    return told.split("\n")[:-1]


def main(words: list[str]) -> int:
    if len(words) < 4 or "--" not in words:
        print(__doc__)
        return 3
    count, end = int(words[0]), words.index("--")
    draw = random.Random(20261126)
    examples = [
        example("aptos_registry", "RawTransaction", "aptos_transfer"),
        example("aptos_registry", "SignedTransaction", "aptos_two_of_three"),
        example("sui_registry", "TransactionData", "sui_transfer"),
        example("sui_registry", "TransactionData", "sui_stake"),
    ]
    seeds = rows()
    lines = [line(draw, draw.choice(examples if i % 2 else seeds)) for i in range(count)]
    asked = "\n".join(lines) + "\n"
    first, second = answers(words[1:end], asked), answers(words[end + 1 :], asked)
    different = [row for row in zip(lines, first, second, strict=True) if row[1] != row[2]]
    for row in different[:10]:
        print("against native: FAILED: " + " / ".join(part[:2000] for part in row))
    told = collections.Counter(tuple(answer.split("\t")[:1]) for answer in second)
    kinds = ", ".join(f"{number} {status[0]}" for status, number in told.most_common())
    print(f"against native: {len(lines)} changed inputs, {len(different)} answered differently ({kinds})")
    return 1 if different else 0


if __name__ == "__main__":
    sys.exit(main(sys.argv[1:]))
