"""A codec driven by a registry, as a project might write one: bytes to values and back. A value is what json makes of
its JSON. tests/vectors.py plants bugs in it, which are listed in codec.bugs."""

from __future__ import annotations

from typing import Any

WIDTHS = {f"{sign}{8 * width}": width for sign in "UI" for width in (1, 2, 4, 8, 16)}
MOST_CONTAINERS = 500


class Refused(Exception):
    """The bytes are no value of the format."""


def only(thing: dict[str, Any]) -> tuple[str, Any]:
    (member,) = thing.items()
    return member


class Decoder:
    def __init__(self, registry: dict[str, Any], data: bytes) -> None:
        self.registry, self.data = registry, data
        self.at = self.depth = 0

    def take(self, count: int) -> bytes:
        if count > len(self.data) - self.at:
            raise Refused("end of input")
        self.at += count
        return self.data[self.at - count : self.at]

    def uleb(self) -> int:
        number = 0
        for shift in range(0, 35, 7):
            byte = self.take(1)[0]
            number |= (byte & 127) << shift
            if byte < 128:
                if byte == 0 and shift > 0:
                    raise Refused("long form")
                if number > 0xFFFFFFFF:
                    raise Refused("number too large")
                return number
        raise Refused("number too large")

    def length(self) -> int:
        length = self.uleb()
        if length > 0x7FFFFFFF:
            raise Refused("length too large")
        return length

    def boolean(self) -> bool:
        byte = self.take(1)[0]
        if byte > 1:
            raise Refused("bad bool")
        return byte == 1

    def is_present(self) -> bool:
        byte = self.take(1)[0]
        if byte > 1:
            raise Refused("bad option")
        return byte == 1

    def text(self) -> str:
        data = self.take(self.length())
        try:
            return data.decode("utf-8")
        except UnicodeDecodeError as fault:
            raise Refused("bad UTF-8") from fault

    def value(self, format: Any) -> Any:
        if isinstance(format, str):
            return self.leaf(format)
        kind, inner = only(format)
        if kind == "TYPENAME":
            self.depth += 1
            if self.depth > MOST_CONTAINERS:
                raise Refused("too deep")
            value = self.content(self.registry[inner])
            self.depth -= 1
            return value
        if kind == "OPTION":
            return {"some": self.value(inner)} if self.is_present() else None
        if kind == "SEQ":
            return self.items([self.value(inner) for _ in range(self.length())], inner)
        if kind == "TUPLE":
            return [self.value(part) for part in inner]
        if kind == "TUPLEARRAY":
            return self.items([self.value(inner["CONTENT"]) for _ in range(inner["SIZE"])], inner["CONTENT"])
        return self.map(inner["KEY"], inner["VALUE"])

    def leaf(self, format: str) -> Any:
        if format in WIDTHS:
            data = self.take(WIDTHS[format])
            number = int.from_bytes(data, "little", signed=format.startswith("I"))
            return str(number) if len(data) > 4 else number
        if format not in ("UNIT", "BOOL", "STR", "BYTES"):
            raise Refused("unsupported")
        if format == "BYTES":
            return self.take(self.length()).hex()
        return self.boolean() if format == "BOOL" else self.text() if format == "STR" else None

    def items(self, values: list[Any], format: Any) -> Any:
        return bytes(values).hex() if format == "U8" else values

    def map(self, key_format: Any, value_format: Any) -> list[Any]:
        entries: list[Any] = []
        last = None
        for _ in range(self.length()):
            start = self.at
            key = self.value(key_format)
            now = self.data[start : self.at]
            if last is not None and now <= last:
                raise Refused("key order")
            last = now
            entries.append([key, self.value(value_format)])
        return entries

    def content(self, content: Any) -> Any:
        """What a container or a variant holds."""
        if isinstance(content, str):
            return None
        kind, inner = only(content)
        if kind in ("NEWTYPESTRUCT", "NEWTYPE"):
            return self.value(inner)
        if kind in ("TUPLESTRUCT", "TUPLE"):
            return [self.value(part) for part in inner]
        if kind == "STRUCT":
            return {name: self.value(format) for name, format in map(only, inner)}
        number = self.uleb()
        if str(number) not in inner:
            raise Refused("unknown variant")
        name, payload = only(inner[str(number)])
        return name if payload == "UNIT" else {name: self.content(payload)}


class Encoder:
    def __init__(self, registry: dict[str, Any]) -> None:
        self.registry = registry
        self.out = bytearray()

    def uleb(self, number: int) -> None:
        while number >= 128:
            self.out.append(number & 127 | 128)
            number >>= 7
        self.out.append(number)

    def value(self, format: Any, value: Any) -> None:
        if isinstance(format, str):
            self.leaf(format, value)
            return
        kind, inner = only(format)
        if kind == "TYPENAME":
            self.content(self.registry[inner], value)
        elif kind == "OPTION":
            self.out.append(0 if value is None else 1)
            if value is not None:
                self.value(inner, value["some"])
        elif kind == "SEQ":
            items = bytes.fromhex(value) if isinstance(value, str) else value
            self.uleb(len(items))
            for item in items:
                self.value(inner, item)
        elif kind == "TUPLEARRAY":
            for item in bytes.fromhex(value) if isinstance(value, str) else value:
                self.value(inner["CONTENT"], item)
        elif kind == "TUPLE":
            for part, item in zip(inner, value):
                self.value(part, item)
        else:
            self.map(inner["KEY"], inner["VALUE"], value)

    def leaf(self, format: str, value: Any) -> None:
        if format in WIDTHS:
            self.out += int(value).to_bytes(WIDTHS[format], "little", signed=format.startswith("I"))
        elif format == "BOOL":
            self.out.append(1 if value else 0)
        elif format in ("STR", "BYTES"):
            data = value.encode("utf-8") if format == "STR" else bytes.fromhex(value)
            self.uleb(len(data))
            self.out += data

    def map(self, key_format: Any, value_format: Any, entries: list[Any]) -> None:
        encoded = []
        for key, value in entries:
            encoded.append((encode(self.registry, key_format, key), encode(self.registry, value_format, value), key))
        encoded.sort(key=lambda entry: entry[0])
        self.uleb(len(encoded))
        for key, value, _ in encoded:
            self.out += key + value

    def content(self, content: Any, value: Any) -> None:
        if isinstance(content, str):
            return
        kind, inner = only(content)
        if kind in ("NEWTYPESTRUCT", "NEWTYPE"):
            self.value(inner, value)
        elif kind in ("TUPLESTRUCT", "TUPLE"):
            for part, item in zip(inner, value):
                self.value(part, item)
        elif kind == "STRUCT":
            for name, format in map(only, inner):
                self.value(format, value[name])
        else:
            name, payload = (value, None) if isinstance(value, str) else only(value)
            number = next(number for number in inner if name in inner[number])
            self.uleb(int(number))
            self.content(inner[number][name], payload)


def decode(registry: dict[str, Any], format: Any, data: bytes) -> Any:
    """The value whose bytes these are, all of them."""
    decoder = Decoder(registry, data)
    value = decoder.value(format)
    if decoder.at != len(data):
        raise Refused("trailing bytes")
    return value


def encode(registry: dict[str, Any], format: Any, value: Any) -> bytes:
    encoder = Encoder(registry)
    encoder.value(format, value)
    return bytes(encoder.out)
