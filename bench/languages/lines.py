"""Each line of the input as a transaction, by orjson and the plain codec, for bench/peers.py: lines.py COMMAND."""

from __future__ import annotations

import sys
from typing import Any

import orjson
from plain import Plain, PlainReader


class Writer(Plain):
    @staticmethod
    def address(text: str) -> bytes:
        return bytes.fromhex(text)


class Reader(PlainReader):
    def address(self) -> str:
        return self.take(32).hex()


def with_arguments(value: dict[str, Any], changed: Any) -> dict[str, Any]:
    call = value["payload"]["EntryFunction"]
    call["args"] = list(map(changed, call["args"]))
    return value


def to_bytes(line: bytes) -> bytes:
    return Writer().encoded(with_arguments(orjson.loads(line), bytes.fromhex))


def to_json(data: bytes) -> bytes:
    text: bytes = orjson.dumps(with_arguments(Reader(data).decoded(), bytes.hex))
    return text


def answer(command: str, line: bytes) -> bytes:
    if command == "encode":
        return to_bytes(line).hex().encode()
    return to_json(bytes.fromhex(line.decode()) if command == "decode" else to_bytes(line))


if __name__ == "__main__":
    sys.stdout.buffer.writelines(answer(sys.argv[1], line) + b"\n" for line in sys.stdin.buffer)
