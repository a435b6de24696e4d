#!/usr/bin/env python3
"""Runs a program at the edges of its sizes: sizes.py BCS. Prints the status, the first bytes of the output, processor
seconds, and the most memory, also as a multiple of the input. The stack is 8 MiB, and the memory 6 GiB.

With --bounds it only runs jobs over many lines, and fails if one doesn't succeed within 16 MiB and 5 processor
seconds. The stack that the program reserves for itself, and hardly touches, comes on top."""

from __future__ import annotations

import os
import resource
import subprocess
import sys
import tempfile
from collections.abc import Iterable, Iterator
from typing import IO, NamedTuple

import size_registries as registries

STACK = 8 << 20
MIB = 1 << 20
MEMORY = 6 << 30
# As tools/link/own_stack.h reserves it.
OWN_STACK = (16 << 20) + (64 << 10)
LIMIT = 256 * MIB
# The longest list that a length can announce.
MOST = 2**31 - 1


class Input(NamedTuple):
    """The same bytes, repeated, between a start and an end."""

    start: bytes
    unit: bytes = b""
    times: int = 0
    end: bytes = b""

    def data(self) -> bytes:
        return self.start + self.unit * self.times + self.end


class Case(NamedTuple):
    """The arguments of a run, in which @ is a file with the input, and the input."""

    name: str
    words: list[str]
    given: Input


class Stream(NamedTuple):
    """The same for input from a pipe, as blocks that have SIZE bytes in all."""

    name: str
    words: list[str]
    blocks: Iterable[bytes]
    size: int


class Ended(NamedTuple):
    """How a run ended, and how its output, or else its standard error, begins."""

    status: int
    answer: bytes
    usage: resource.struct_rusage

    def processor(self) -> float:
        return self.usage.ru_utime + self.usage.ru_stime


def uleb(number: int) -> bytes:
    digits = []
    while number >= 128:
        digits.append(number & 127 | 128)
        number >>= 7
    return bytes([*digits, number])


def around(size: int, start: bytes = b"", end: bytes = b"") -> Input:
    """A JSON string of SIZE bytes, between a start and an end."""
    return Input(start + b'"', b"a", size - 2, b'"' + end)


def registry_cases() -> Iterator[Case]:
    for what, length in [("256 MiB of one name", LIMIT - 17), ("a name of 1 MB", 1_000_000)]:
        yield Case(f"registry, {what}", ["check", "@"], Input(b'{"', b"a", length, b'":"UNITSTRUCT"}'))
    small = registries.containers(2 * MIB).encode()
    yield Case("registry, 64 MiB of small containers", ["check", "@"], Input(small))
    million = registries.variants(1_000_000).encode()
    yield Case("registry, an enum of a million variants", ["check", "@"], Input(million))


def json_cases() -> Iterator[Case]:
    numbers, million = '{"SEQ":"U8"}', 1_000_000
    yield Case("JSON, 256 MiB of one string", ["encode", "{}", '"STR"'], around(LIMIT))
    yield Case("JSON, 64 MiB of numbers", ["encode", "{}", numbers], Input(b"[", b"1,", 32 * MIB - 1, b"1]"))
    yield Case("JSON, one byte too large", ["encode", "{}", '"STR"'], around(LIMIT + 1))
    variants = ["encode", registries.variants(million), "E"]
    yield Case("JSON, one of a million variants", variants, Input(b'"V999999"'))
    fields = ["encode", registries.fields(million), "S"]
    yield Case("JSON, an object of a million members", fields, Input(registries.members(million).encode()))
    nested = registries.nested('"U8"', 32)
    yield Case("JSON, nesting 100", ["encode", "{}", nested], Input(b"[" * 100 + b"]" * 100))
    inner = registries.newtypes(500)
    yield Case("JSON, 500 containers in one another", ["encode", inner, "C0"], Input(b"7"))
    yield Case("JSON, 500 containers in one another, normalised", ["normalise", inner, "C0"], Input(b"7"))
    yield Case("JSON, one container too many", ["encode", registries.newtypes(501), "C0"], Input(b"7"))


def bytes_cases() -> Iterator[Case]:
    inner = registries.newtypes(500)
    yield Case("hexadecimal, 500 containers in one another", ["decode", inner, "C0"], Input(b"07"))
    digits = Input(b"f8ffff3f", b"00", 128 * MIB - 8)
    yield Case("hexadecimal, 256 MiB of one byte string", ["decode", "{}", '"BYTES"'], digits)
    for what, format, length in [
        ("200 MB of one string", '"STR"', 200_000_000),
        ("256 MiB of one byte string", '"BYTES"', LIMIT - 4),
    ]:
        yield Case(f"bytes, {what}", ["decode", "--raw", "{}", format], Input(uleb(length), b"a", length))
    format, count = '{"SEQ":"U16"}', 32 * MIB
    numbers = Input(uleb(count), b"ab", count)
    yield Case("bytes, 64 MiB of numbers", ["decode", "--raw", "{}", format], numbers)
    yield Case("part, the last of 32 Mi numbers", ["part", "--raw", "{}", format, str(count - 1)], numbers)


def empty_cases() -> Iterator[Case]:
    """Many values in few bytes."""
    empty, row = '{"U":{"STRUCT":[]}}', '{"SEQ":{"TYPENAME":"U"}}'
    structs = f"bytes, a list of {MOST} empty structs"
    for name, words in [
        (f"bytes, a list of {MOST} units, within 1000 nodes", ["decode", "--nodes", "1000", "{}", '{"SEQ":"UNIT"}']),
        (f"{structs}, within 1000 nodes", ["decode", "--nodes", "1000", empty, row]),
        (f"{structs}, one node too few", ["part", "--nodes", str(2 * MOST), empty, row, "0"]),
        (f"{structs}, and one part of it", ["part", "--nodes", str(2**32 - 1), empty, row, str(MOST - 1)]),
        (f"{structs}, more than the memory", ["decode", "--nodes", str(2**32 - 1), empty, row]),
    ]:
        yield Case(name, words, Input(b"ffffffff07"))
    for name, content in [("units", '"UNIT"'), ("empty structs", '{"TYPENAME":"U"}')]:
        array = '{"TUPLEARRAY":{"CONTENT":' + content + ',"SIZE":18446744073709551615}}'
        yield Case(f"bytes, an array of 2^64-1 {name}", ["decode", empty, array], Input(b""))
    words = ["decode", "--raw", '{"U":"UNITSTRUCT"}', row]
    yield Case("bytes, 10 million empty structs", words, Input(uleb(10_000_000)))


def deep_cases() -> Iterator[Case]:
    deep, keys = registries.lists_of_itself(), registries.maps_as_keys()
    ones = Input(b"", b"\x01", 31 * 500, b"\x00")
    yield Case("bytes, 500 containers of 32 levels", ["decode", "--raw", deep, "L"], ones)
    yield Case("bytes, 500 containers of 32 levels, explained", ["explain", "--raw", deep, "L"], ones)
    fewer = Input(b"", b"\x01", 31 * 500 - 1, b"\x00")
    yield Case("bytes, 15,000 maps nested as keys", ["decode", "--raw", keys, "K"], fewer)


def line_cases() -> Iterator[Case]:
    words, short = ["encode", "--lines", "{}", '"STR"'], b'"a"\n'
    yield Case("lines, one of 256 MiB after a short one", words, around(LIMIT, short, b"\n"))
    yield Case("lines, one a byte too long after a short one", words, around(LIMIT + 1, short, b"\n"))
    numbers = ["encode", "--lines", "{}", '"U8"']
    yield Case("lines, 32 million of one digit", numbers, Input(b"", b"7\n", 32_000_000))


def bounded() -> Iterator[Case]:
    """Jobs over many lines: they need memory for the longest line, however large the input is, and read the registry
    once."""
    strings = Input(b"", around(99, end=b"\n").data(), 200_000)
    yield Case("lines, 200,000 of 100 bytes", ["encode", "--lines", "{}", '"STR"'], strings)
    words = ["encode", "--lines", registries.containers(10_000), "C0009999"]
    yield Case("lines, 20,000 at a registry of 10,000 containers", words, Input(b"", b"7\n", 20_000))


def strings(unit: bytes, size: int, count: int, announced: int | None = None) -> Iterator[bytes]:
    block = unit * (MIB // len(unit))
    for _ in range(count):
        yield uleb(announced or size)
        for _ in range(size // MIB):
            yield block
        yield block[: size % MIB]


def streams() -> Iterator[Stream]:
    words = ["scan", "--raw", "{}"]
    two = strings(b"a", MOST, 2)
    yield Stream("scan, 4 GiB of two byte strings", [*words, '{"TUPLE":["BYTES","BYTES"]}'], two, 2 * (MOST + 5))
    two = strings("é".encode(), MOST - 1, 2)
    yield Stream("scan, 4 GiB of two strings", [*words, '{"TUPLE":["STR","STR"]}'], two, 2 * (MOST + 4))
    numbers = strings(b"a", 2**32, 1, 2**29)
    yield Stream("scan, 4 GiB of 512 Mi numbers", [*words, '{"SEQ":"U64"}'], numbers, 2**32 + 5)


def started(
    program: str, words: list[str], given: IO[bytes] | int, memory: int, seconds: int
) -> subprocess.Popen[bytes]:
    def limit() -> None:
        resource.setrlimit(resource.RLIMIT_STACK, (STACK, STACK))
        resource.setrlimit(resource.RLIMIT_CPU, (seconds, seconds))
        resource.setrlimit(resource.RLIMIT_AS, (memory, memory))

    return subprocess.Popen(
        [program, *words], stdin=given, stdout=subprocess.PIPE, stderr=subprocess.PIPE, preexec_fn=limit
    )


def ended(process: subprocess.Popen[bytes]) -> Ended:
    assert process.stdout and process.stderr
    answer = process.stdout.read(24)
    while process.stdout.read(MIB):
        pass
    note = process.stderr.read(24)
    _, status, usage = os.wait4(process.pid, 0)
    return Ended(os.waitstatus_to_exitcode(status), answer or note, usage)


def run(program: str, case: Case, given: bytes, memory: int = MEMORY, seconds: int = resource.RLIM_INFINITY) -> Ended:
    with tempfile.NamedTemporaryFile() as file, tempfile.NamedTemporaryFile() as registry:
        file.write(given)
        file.seek(0)
        words = [file.name if word == "@" else word for word in case.words]
        # The system allows arguments of up to 128 KiB, so a long registry is a file.
        for place, word in enumerate(words):
            if len(word) > 100_000:
                registry.write(word.encode())
                registry.flush()
                words[place] = registry.name
        return ended(started(program, words, file, memory, seconds))


def run_stream(program: str, stream: Stream) -> Ended:
    process = started(program, stream.words, subprocess.PIPE, MEMORY, resource.RLIM_INFINITY)
    assert process.stdin
    try:
        for block in stream.blocks:
            process.stdin.write(block)
        process.stdin.close()
    except BrokenPipeError:
        pass
    return ended(process)


def ends_within_bounds(program: str, case: Case) -> bool:
    end = run(program, case, case.given.data(), OWN_STACK + 16 * MIB, 5)
    print(f"sizes: {case.name}: status {end.status}, {end.processor():.2f} processor seconds", flush=True)
    return end.status == 0


def tell(name: str, size: int, end: Ended) -> None:
    memory = end.usage.ru_maxrss / 1024
    shown = end.answer.decode(errors="replace").strip().replace("|", "\\|").replace("\n", " ")
    multiple = f"{memory * MIB / size:.1f}" if size > MIB else ""
    print(
        f"| {name} | {size / 1e6:.1f} | {end.status} | `{shown}` | {end.processor():.2f} | {memory:.0f} | {multiple} |",
        flush=True,
    )


def main() -> None:
    program = sys.argv[1]
    if sys.argv[2:] == ["--bounds"]:
        sys.exit(not all([ends_within_bounds(program, case) for case in bounded()]))
    print("| Case | Input, MB | Status | Output begins | Processor s | MiB | MiB for each MiB of input |")
    print("|---|---|---|---|---|---|---|")
    for cases in [registry_cases, json_cases, bytes_cases, empty_cases, deep_cases, line_cases]:
        for case in cases():
            given = case.given.data()
            tell(case.name, max(len(given), sum(map(len, case.words))), run(program, case, given))
    for stream in streams():
        tell(f"{stream.name} from a pipe", stream.size, run_stream(program, stream))


if __name__ == "__main__":
    main()
