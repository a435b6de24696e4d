#!/usr/bin/env python3
"""Tries the program `bcs` over an encoder and a decoder that always give up.

In a copy of the crates, two lines of the encoder and one of the decoder are changed: they report that memory ran out.
Their contracts allow that, except for the decoder at numbers, truth values and the unit, which no case has. So each
command whose answer is made from their bytes or values must end with `fault: memory`, and the others must answer as
usual. The copy isn't proved: `rt try` runs it. Nothing is left behind.
"""

import pathlib
import shutil
import tempfile
from typing import NamedTuple

from harness import ROOT, fail, passed, ran

ENCODER = "crates/bcs_encode/src/encoding.rt"
DECODER = "crates/bcs_decode/src/decoding.rt"
EXAMPLES = ROOT / "examples"
NUMBER, U8 = b"7\n", '"U8"'
MAP = '{"MAP":{"KEY":"U8","VALUE":"U8"}}'
ENUM = '{"E":{"ENUM":{"0":{"A":"UNIT"},"300":{"B":{"NEWTYPE":"U8"}}}}}'
VALUE = ["registry", "RawTransaction"]
# An argument {} alone would be replaced with the name of the input.
NO_CONTAINERS = "{ }"
MEMORY = "4 fault: memory"


class Change(NamedTuple):
    """A line of a file, and what is written instead."""

    file: str
    old: str
    new: str


class Case(NamedTuple):
    """What a command must end with: its status and the text on both streams."""

    name: str
    input: bytes
    wanted: str
    words: list[str]


CHANGES = [
    # A small value whose maps are in order is answered after one walk, and any other after two.
    Change(
        ENCODER,
        "        return Ok(small.bytes.to_vec(alloc)?);",
        "        return Err(EncodeFault::OutOfMemory);",
    ),
    Change(
        ENCODER,
        "        Extent::Rising | Extent::Sorting => Ok(out.bytes.into_vec(alloc)?),",
        "        Extent::Rising | Extent::Sorting => Err(EncodeFault::OutOfMemory),",
    ),
    # All of the decoder's calls that return a value share this line.
    Change(DECODER, "    Ok((found, at.place))", "    Err(DecodeFault::OutOfMemory)"),
]


def cases() -> list[Case]:
    text, data = (EXAMPLES / "aptos_transfer.json").read_bytes(), (EXAMPLES / "aptos_transfer.hex").read_bytes()
    bad_text = (EXAMPLES / "aptos_transfer_damaged.json").read_bytes()
    bad_data = (EXAMPLES / "aptos_transfer_damaged.hex").read_bytes()
    return [
        Case("encode", text, MEMORY, ["encode", *VALUE]),
        Case("encode_raw", text, MEMORY, ["encode", "--raw", *VALUE]),
        Case("encode_a_number", NUMBER, MEMORY, ["encode", NO_CONTAINERS, U8]),
        Case("encode_a_map", b"[[1,2]]\n", MEMORY, ["encode", NO_CONTAINERS, MAP]),
        Case("encode_a_variant", b'{"B":7}\n', MEMORY, ["encode", ENUM, "E"]),
        Case("decode", data, MEMORY, ["decode", *VALUE]),
        Case("decode_a_variant", b"ac0207\n", MEMORY, ["decode", ENUM, "E"]),
        # Only entries that aren't in order are encoded, and decoded in the order of the bytes.
        Case("normalise_a_map", b"[[2,1],[1,2]]\n", MEMORY, ["normalise", NO_CONTAINERS, MAP]),
        Case("normalise_a_number", NUMBER, "0 7", ["normalise", NO_CONTAINERS, U8]),
        Case("same", text, MEMORY, ["same", *VALUE, "text"]),
        Case("same_number", NUMBER, MEMORY, ["same", NO_CONTAINERS, U8, "number"]),
        # Nothing is encoded or decoded: a part is cut out of the input.
        Case("part", data, "0 0b00000000000000", ["part", *VALUE, "inner/1"]),
        Case("check", text, "0 ok 21", ["check", "registry"]),
        Case("grows", text, "0 grows", ["grows", "registry", "registry"]),
        Case("refused_text", bad_text, "2 refused: BadHex", ["encode", "--quiet", *VALUE]),
        Case("refused_bytes", bad_data, "2 refused: LongForm at 73", ["decode", "--quiet", *VALUE]),
    ]


def copy_crates(copy: pathlib.Path) -> None:
    shutil.copytree(ROOT / "crates", copy / "crates", ignore=shutil.ignore_patterns("out", "must-fail"))
    for name in ("crates.txt", "HANDLES"):
        shutil.copy(ROOT / name, copy)
    for change in CHANGES:
        path = copy / change.file
        lines = path.read_text(encoding="utf-8").split("\n")
        if lines.count(change.old) != 1:
            fail(f"{change.file} has not one line '{change.old}'")
        lines[lines.index(change.old)] = change.new
        path.write_text("\n".join(lines), encoding="utf-8")


def run(copy: pathlib.Path, asked: list[Case], folder: pathlib.Path) -> str:
    """What `rt try` prints for the cases."""
    for case in asked:
        (folder / case.name).write_bytes(case.input)
        (folder / f"{case.name}.args").write_text("".join(f"{word}\n" for word in case.words), encoding="utf-8")
    number = copy / "number"
    number.write_bytes(NUMBER)
    data = {
        "registry": EXAMPLES / "aptos_registry.json",
        "text": EXAMPLES / "aptos_transfer.json",
        "number": number,
    }
    command = ["rt", "try", "--cases", str(folder)]
    for name, path in data.items():
        command += ["--data", f"{name}={path}"]
    ended = ran(*command, folder=copy / "crates/bcs", merged=True)
    if ended.returncode != 0:
        fail("\n".join(ended.stdout.splitlines()[-3:]))
    return ended.stdout


def endings(log: str) -> dict[str, str]:
    """The status of each case, and what it printed."""
    found, name, text = {}, "", ""
    for line in log.splitlines():
        if line.startswith("== "):
            name, text = line.split()[1], ""
        elif line.startswith("case="):
            status = line.partition(" status=")[2].split(" ")[0]
            found[name] = f"{status} {text}"
        else:
            text += line
    return found


def main() -> None:
    asked = cases()
    with tempfile.TemporaryDirectory() as room:
        copy, folder = pathlib.Path(room) / "copy", pathlib.Path(room) / "cases"
        copy.mkdir()
        folder.mkdir()
        copy_crates(copy)
        ended = endings(run(copy, asked, folder))
    for case in asked:
        if ended.get(case.name) != case.wanted:
            fail(f"{case.name}: {ended.get(case.name)} in place of {case.wanted}")
    if len(ended) != len(asked):
        fail(f"{len(ended)} cases ended, and {len(asked)} were asked")
    for name in sorted(ended):
        passed(f"{name}: {ended[name]}")


if __name__ == "__main__":
    main()
