#!/usr/bin/env python3
"""Measures what hostile inputs cost each command of the program: hostile.py BCS. Prints, for each input, how many bytes
came from the stranger, the status, processor seconds and the most memory, at the program's default limits and at those
that docs/LIMITS.md recommends. A run ends after 60 processor seconds or at 8 GiB."""

from __future__ import annotations

import dataclasses
import json
import os
import resource
import subprocess
import sys
import tempfile

MIB = 1 << 20
SECONDS = 60
MEMORY = 8 << 30
SMALL = ["--nodes", "1000000", "--depth", "64"]
NESTED = 60


@dataclasses.dataclass(frozen=True)
class Attack:
    """Words of a command line, in which @ is a file with the stranger's registry, and the stranger's input."""

    title: str
    words: list[str]
    registry: bytes = b""
    input: bytes = b""
    takes_limits: bool = True

    def size(self) -> int:
        return len(self.registry) + len(self.input)


def doubling(count: int) -> bytes:
    """Containers each of which holds the next one twice, down to one without bytes."""
    made = {f"C{at}": {"TUPLESTRUCT": [{"TYPENAME": f"C{at + 1}"}] * 2} for at in range(count)}
    return json.dumps({**made, f"C{count}": "UNITSTRUCT"}).encode()


def chain(count: int, field: str = "a") -> bytes:
    made = {f"C{at}": {"STRUCT": [{field: {"TYPENAME": f"C{at + 1}"}}]} for at in range(count)}
    return json.dumps({**made, f"C{count}": "UNITSTRUCT"}).encode()


def ring(count: int) -> bytes:
    """Containers each of which may hold the next one, and the last the first."""
    made = {}
    for at in range(count):
        following = {"OPTION": {"TYPENAME": f"C{(at + 1) % count}"}}
        made[f"C{at}"] = {"STRUCT": [{"a": "U64"}, {"b": following}]}
    return json.dumps(made).encode()


def containers(count: int) -> bytes:
    return json.dumps({f"C{at}": {"STRUCT": [{"a": "U8"}, {"b": "STR"}]} for at in range(count)}).encode()


def long_name(length: int) -> bytes:
    return json.dumps({"S": {"STRUCT": [{"n" * length: {"SEQ": "BOOL"}}]}}).encode()


def nested(last: bytes = b'"":null') -> bytes:
    """NESTED objects, each in the one before, with the last one's members. Of all JSON, such takes the most memory."""
    return b'{"":' * (NESTED - 1) + b"{" + last + b"}" * NESTED


def listed(last: bytes) -> bytes:
    """4 MB of a JSON array, and this item at its end."""
    return b"[" + (nested() + b",") * 13_000 + last + b"]"


def hexadecimal(data: bytes) -> bytes:
    return data.hex().encode()


def attacks() -> list[Attack]:
    units, numbers = '{"SEQ":"UNIT"}', '{"SEQ":"U8"}'
    bytes_map = '{"MAP":{"KEY":"U32","VALUE":"UNIT"}}'
    pairs = b"[" + b",".join(b"[%d,null]" % at for at in range(300_000, 0, -1)) + b"]"
    bomb = b"ffffffff07"
    return [
        Attack("check: 100,000 small containers", ["check", "@"], containers(100_000), takes_limits=False),
        Attack("grows: the same against itself", ["grows", "@", "@"], containers(100_000), takes_limits=False),
        Attack("encode: 2 million numbers", ["encode", "{}", numbers], input=b"[" + b"1," * 2_000_000 + b"1]"),
        Attack("encode: refused, 780,000 objects", ["encode", "{}", '"U8"'], input=listed(nested())),
        Attack("encode: 780,000 objects, and then no JSON", ["encode", "{}", '"U8"'], input=listed(b"x")),
        Attack(
            "encode: 780,000 objects, the last with a repeated member",
            ["encode", "@", '{"SEQ":{"TYPENAME":"C0"}}'],
            chain(NESTED, ""),
            listed(nested(b'"":null,"":null')),
        ),
        Attack(
            "check: refused, 780,000 objects",
            ["check", "@"],
            b'{"S":{"STRUCT":%b}}' % listed(nested()),
            takes_limits=False,
        ),
        Attack("encode: a map of 300,000 falling keys", ["encode", "{}", bytes_map], input=pairs),
        Attack("normalise: the same", ["normalise", "{}", bytes_map], input=pairs),
        Attack("decode: five bytes announce 2,147,483,647 units", ["decode", "{}", units], input=bomb),
        Attack("scan: the same", ["scan", "{}", units], input=bomb),
        Attack("scan: no byte, 40 containers that double", ["scan", "@", "C0"], doubling(40)),
        Attack("decode: no byte, 24 containers that double", ["decode", "@", "C0"], doubling(24)),
        Attack("part: five bytes announce 2,147,483,647 units", ["part", "{}", units, "1"], input=bomb),
        Attack(
            "explain: 1,000 truth values under a name of 1 MB",
            ["explain", "@", "S"],
            long_name(MIB),
            hexadecimal(b"\xe8\x07" + bytes(1000)),
        ),
        Attack(
            "explain: 100,000 bytes",
            ["explain", "{}", '{"SEQ":"BOOL"}'],
            input=hexadecimal(b"\xa0\x8d\x06" + bytes(100_000)),
        ),
        Attack(
            "explain --json: 100,000 bytes",
            ["explain", "--json", "{}", '{"SEQ":"BOOL"}'],
            input=hexadecimal(b"\xa0\x8d\x06" + bytes(100_000)),
        ),
        Attack("show: 10,000 chained containers", ["show", "@"], chain(10_000), takes_limits=False),
        Attack("show: a ring of 10,000 containers", ["show", "@"], ring(10_000), takes_limits=False),
        Attack("example --full: 24 containers that double", ["example", "--full", "@", "C0"], doubling(24)),
        Attack("schema: 10,000 chained containers", ["schema", "@", "C0"], chain(10_000), takes_limits=False),
        Attack("schema: 100,000 chained containers", ["schema", "@", "C0"], chain(100_000), takes_limits=False),
    ]


def limited() -> None:
    resource.setrlimit(resource.RLIMIT_CPU, (SECONDS, SECONDS))
    resource.setrlimit(resource.RLIMIT_AS, (MEMORY, MEMORY))


def cost(program: str, attack: Attack, options: list[str]) -> str:
    with tempfile.NamedTemporaryFile() as registry, tempfile.TemporaryFile() as given:
        registry.write(attack.registry)
        registry.flush()
        given.write(attack.input)
        given.seek(0)
        words = [registry.name if word == "@" else word for word in attack.words]
        process = subprocess.Popen(
            [program, words[0], *options, *words[1:]],
            stdin=given,
            stdout=subprocess.DEVNULL,
            stderr=subprocess.DEVNULL,
            preexec_fn=limited,
        )
        _, status, used = os.wait4(process.pid, 0)
    ended = "stopped" if os.WIFSIGNALED(status) else f"{os.WEXITSTATUS(status)}"
    # A child begins with the memory of this script, which hides anything smaller.
    memory = f"{used.ru_maxrss // 1024:,}" if used.ru_maxrss > 64 * 1024 else "<64"
    return f"{ended} | {used.ru_utime + used.ru_stime:.2f} | {memory}"


def main(program: str) -> None:
    columns = ["What a stranger sends", "Bytes", "Status", "s", "MiB", "Limited: status", "s", "MiB"]
    print(f"| {' | '.join(columns)} |\n{'|---' * len(columns)}|")
    for attack in attacks():
        small = cost(program, attack, SMALL) if attack.takes_limits else " | | "
        print(f"| {attack.title} | {attack.size():,} | {cost(program, attack, [])} | {small} |", flush=True)


if __name__ == "__main__":
    main(sys.argv[1])
