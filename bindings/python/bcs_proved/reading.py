"""Converts the JSON that the library made of a value to Python values.

`Readers` makes a function for each format of a registry. These recurse at most 100 levels deep, like the JSON.
"""

from __future__ import annotations

import binascii
import json
import sys
from collections.abc import Mapping
from typing import Any, Callable, Optional

from .values import Formats

__all__ = ["Read", "Readers", "value_of"]

# Converts the JSON of a value of one format. None leaves it as it is.
Read = Optional[Callable[[Any], Any]]
# (`json.loads` also looks for blanks and byte order marks)
_parsed = json.JSONDecoder().raw_decode
# (each look-up of a method makes another object, and `value_of` asks whether it is this one)
_octets_of = bytes.fromhex
_LEAVES: dict[str, Callable[[Any], Any]] = {
    **{word: int for word in ("U64", "U128", "I64", "I128")},
    "BYTES": _octets_of,
}


def value_of(read: Read, text: memoryview) -> Any:
    """The value that normal JSON represents. The text is released."""
    with text:
        if read is _octets_of:
            # (digits have no escapes, and needn't become a str)
            with text[1:-1] as digits:
                return binascii.unhexlify(digits)
        # (a large document has little room for copies of itself)
        document = str(text, "utf-8")
    found, _ = _parsed(document)
    return found if read is None else read(found)


class Readers:
    def __init__(
        self, containers: Mapping[str, Any], own_forms: Mapping[str, str], plain_options: Optional[Formats] = None
    ) -> None:
        """`own_forms` has the kinds of the containers with a form of their own. With `plain_options`, an option is None
        or its value wherever these formats say that this is clear."""
        self._containers = containers
        self._plain_options = plain_options
        self._named: dict[str, Read] = {name: _own_reader(kind) for name, kind in own_forms.items()}

    def format(self, format: Any) -> Read:
        """Of a format's JSON."""
        if isinstance(format, str):
            return _LEAVES.get(format)
        ((kind, inner),) = format.items()
        if kind == "TYPENAME":
            return self._container(inner)
        if kind == "OPTION":
            return _option(self.format(inner), self._plain_options is not None and self._plain_options.is_plain(inner))
        if kind == "TUPLE":
            return self._row(inner)
        if kind == "MAP":
            return _each(self._row([inner["KEY"], inner["VALUE"]]))
        element = inner["CONTENT"] if kind == "TUPLEARRAY" else inner
        return _octets_of if element == "U8" else _each(self.format(element))

    def _container(self, name: str) -> Read:
        """What a container holds is read when the first value needs it, since containers may hold themselves. The loop
        follows newtypes of newtypes."""
        seen = set()
        while name not in self._named and name not in seen:
            seen.add(name)
            container = self._containers[name]
            if container == "UNITSTRUCT":
                return None
            ((kind, inner),) = container.items()
            if kind != "NEWTYPESTRUCT":
                return self._late(name, kind, inner)
            if isinstance(inner, str):
                return _LEAVES.get(inner)
            if "TYPENAME" not in inner:
                return self._late(name, "NEWTYPE", inner)
            name = inner["TYPENAME"]
        return self._named.get(name)

    def _late(self, name: str, kind: str, inner: Any) -> Read:
        known: Read = None
        is_known = False

        def read(found: Any) -> Any:
            nonlocal known, is_known
            if not is_known:
                if name not in self._named:
                    self._named[name] = self._content(kind, inner)
                known, is_known = self._named[name], True
            return found if known is None else known(found)

        return read

    def _content(self, kind: str, inner: Any) -> Read:
        if kind == "UNIT":
            return None
        if kind == "NEWTYPE":
            return self.format(inner)
        if kind in ("TUPLESTRUCT", "TUPLE"):
            return self._row(inner)
        if kind == "STRUCT":
            return _struct({name: self.format(format) for field in inner for name, format in field.items()})
        carried = {name: payload for variant in inner.values() for name, payload in variant.items()}
        return _enum({name: self._payload(payload) for name, payload in carried.items()})

    def _payload(self, payload: Any) -> Read:
        if isinstance(payload, str):
            return None
        ((kind, inner),) = payload.items()
        return self._content(kind, inner)

    def _row(self, formats: list[Any]) -> Read:
        reads = [self.format(format) for format in formats]
        if not any(reads):
            return None
        return lambda found: [part if read is None else read(part) for read, part in zip(reads, found)]


def _each(read: Read) -> Read:
    if read is None:
        return None
    of_one = read
    return lambda found: [*map(of_one, found)]


def _option(read: Read, is_plain: bool) -> Read:
    if read is None and not is_plain:
        return None

    def option(found: Any) -> Any:
        if found is None:
            return None
        held = found["some"] if read is None else read(found["some"])
        return held if is_plain else {"some": held}

    return option


def _struct(reads: dict[str, Read]) -> Read:
    """The fields in the order of the registry."""
    # (`encode` compares such names faster)
    parts = [(sys.intern(name), read) for name, read in reads.items()]
    return lambda found: {name: found[name] if read is None else read(found[name]) for name, read in parts}


def _enum(reads: dict[str, Read]) -> Read:
    def enum(found: Any) -> Any:
        if isinstance(found, str):
            return found
        ((name, payload),) = found.items()
        read = reads[name]
        return {name: payload if read is None else read(payload)}

    return enum


def _own_reader(kind: str) -> Read:
    """Of a container with a form of its own."""
    if kind == "address":
        return lambda found: "0x" + found
    return lambda found: int.from_bytes(bytes.fromhex(found), "little", signed=kind[0] == "i")
