"""Formats as methods take them: a name, a format's JSON, a dict, or a name with a type."""

from __future__ import annotations

import functools
from collections.abc import Mapping
from typing import Any, Generic, TypeVar, Union

from . import values

__all__ = ["AnyName", "Data", "Format", "Name", "PlainName", "Text", "bytes_of", "bytes_of_text", "json_of"]

Text = Union[str, bytes]
Data = Union[bytes, bytearray, memoryview]
_Value = TypeVar("_Value")


class Name(Generic[_Value]):
    """The name of a container, with the Python type of its values, as bcs_proved.types writes it for each container. As
    a format it is the same as the name, and checkers know what `encode` accepts and `decode` returns."""

    def __init__(self, name: str) -> None:
        self.name = name

    def __repr__(self) -> str:
        return f"bcs_proved.Name({self.name!r})"


class PlainName(Name[Any], Generic[_Value]):
    """The same for types that were written with --plain-options, which `decode(.., plain_options=True)` returns."""


AnyName = Union[str, bytes, Mapping[str, Any]]
Format = Union[AnyName, Name[Any]]


def bytes_of_text(text: Text) -> bytes:
    """What isn't Unicode is passed on, too, so that it is refused as invalid JSON."""
    if isinstance(text, str):
        return str.encode(text, "utf-8", "surrogatepass")
    return bytes_of(text, "a text is needed here, as a str or bytes")


def bytes_of(data: Data, needed: str = "bytes are needed here") -> bytes:
    octets = values.octets_of(data)
    if octets is None:
        raise TypeError(f"{needed}, not {values.name_of(type(data))}")
    return octets


@functools.lru_cache(maxsize=1000)
def _json_of_str(format: str) -> bytes:
    """A string that begins like JSON is a format's JSON, and any other a container's name."""
    return bytes_of_text(format) if format[:1] in ("{", '"') else values.json_of_format({"TYPENAME": format})


def json_of(format: Format) -> bytes:
    if type(format) is str:
        return _json_of_str(format)
    if isinstance(format, Name):
        return values.json_of_format({"TYPENAME": format.name})
    if isinstance(format, str):
        # (what a class of its own calls equal may be another name)
        return _json_of_str(str.__str__(format))
    return values.json_of_format(format) if isinstance(format, Mapping) else bytes_of(format)
