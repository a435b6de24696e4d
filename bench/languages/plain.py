"""A codec for transactions of Aptos, as it is written by hand. It checks less."""

from __future__ import annotations

from typing import Any

ENTRY_FUNCTION, STRUCT = 2, 7


class Plain:
    @staticmethod
    def length(number: int) -> bytes:
        out = bytearray()
        while number >= 0x80:
            out.append(number & 0x7F | 0x80)
            number >>= 7
        out.append(number)
        return bytes(out)

    def octets(self, data: bytes) -> bytes:
        return self.length(len(data)) + data

    def text(self, text: str) -> bytes:
        return self.octets(text.encode())

    @staticmethod
    def address(text: str) -> bytes:
        return bytes.fromhex(text[2:].zfill(64))

    @staticmethod
    def number(number: int) -> bytes:
        return number.to_bytes(8, "little")

    def tags(self, tags: list[Any]) -> bytes:
        return self.length(len(tags)) + b"".join(map(self.tag, tags))

    def tag(self, tag: dict[str, Any]) -> bytes:
        struct = tag["Struct"]
        names = self.text(struct["module"]) + self.text(struct["name"])
        return bytes([STRUCT]) + self.address(struct["address"]) + names + self.tags(struct["type_args"])

    def encoded(self, value: dict[str, Any]) -> bytes:
        call = value["payload"]["EntryFunction"]
        return b"".join(
            [
                self.address(value["sender"]),
                self.number(value["sequence_number"]),
                bytes([ENTRY_FUNCTION]),
                self.address(call["module"]["address"]),
                self.text(call["module"]["name"]),
                self.text(call["function"]),
                self.tags(call["ty_args"]),
                self.length(len(call["args"])),
                *map(self.octets, call["args"]),
                self.number(value["max_gas_amount"]),
                self.number(value["gas_unit_price"]),
                self.number(value["expiration_timestamp_secs"]),
                bytes([value["chain_id"]]),
            ]
        )


class PlainReader:
    def __init__(self, data: bytes) -> None:
        self.data = data
        self.place = 0

    def take(self, length: int) -> bytes:
        end = self.place + length
        if end > len(self.data):
            raise ValueError("the end")
        found = self.data[self.place : end]
        self.place = end
        return found

    def length(self) -> int:
        length = 0
        for shift in range(0, 32, 7):
            (byte,) = self.take(1)
            length |= (byte & 0x7F) << shift
            if byte < 0x80:
                return length
        raise ValueError("a long length")

    def octets(self) -> bytes:
        return self.take(self.length())

    def text(self) -> str:
        return self.octets().decode()

    def address(self) -> str:
        return "0x" + self.take(32).hex()

    def number(self) -> int:
        return int.from_bytes(self.take(8), "little")

    def tag(self) -> dict[str, Any]:
        if self.take(1) != bytes([STRUCT]):
            raise ValueError("another tag")
        address, module, name = self.address(), self.text(), self.text()
        return {"Struct": {"address": address, "module": module, "name": name, "type_args": self.tags()}}

    def tags(self) -> list[Any]:
        return [self.tag() for _ in range(self.length())]

    def payload(self) -> dict[str, Any]:
        if self.take(1) != bytes([ENTRY_FUNCTION]):
            raise ValueError("another payload")
        module = {"address": self.address(), "name": self.text()}
        function, tags = self.text(), self.tags()
        args = [self.octets() for _ in range(self.length())]
        return {"EntryFunction": {"module": module, "function": function, "ty_args": tags, "args": args}}

    def decoded(self) -> dict[str, Any]:
        value = {
            "sender": self.address(),
            "sequence_number": self.number(),
            "payload": self.payload(),
            "max_gas_amount": self.number(),
            "gas_unit_price": self.number(),
            "expiration_timestamp_secs": self.number(),
            "chain_id": self.take(1)[0],
        }
        if self.place != len(self.data):
            raise ValueError("more")
        return value
