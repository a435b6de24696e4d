"""What the values in tests/rows/values/python.rows are made of."""

import array
import collections
import contextlib
import ctypes
import dataclasses
import datetime
import decimal
import enum
import fractions
import types
from typing import Any, NamedTuple

from bcs_proved import Hex

# ./test runs with any Python, and asks for no value that needs numpy
with contextlib.suppress(ModuleNotFoundError):
    import numpy

__all__ = ["array", "collections", "datetime", "decimal", "fractions", "types", "Hex", "value_of"]


class Color(enum.IntEnum):
    RED = 5


class Name(str, enum.Enum):
    DOT = "Dot"


class Plain(enum.Enum):
    RED = 5


class Row(NamedTuple):
    first: int
    second: int


class Structure(ctypes.Structure):
    _fields_ = [("x", ctypes.c_uint8)]


class Packed(ctypes.Structure):
    """Its buffer calls an item of five bytes a single byte."""

    _pack_ = 1
    _fields_ = [("x", ctypes.c_uint8), ("y", ctypes.c_uint32)]


class Loud(int):
    """An int that calls itself another one."""

    def __index__(self) -> int:
        return 6

    def __str__(self) -> str:
        return "6"

    __repr__ = __int__ = __str__  # type: ignore[assignment]


class Shout(str):
    def __str__(self) -> str:
        return "SHOUT"


class OtherList(list):  # type: ignore[type-arg]
    """A list that says that it has other items."""

    def __iter__(self) -> Any:
        return iter([9])


class Index:
    def __init__(self, number: object = 5) -> None:
        self.number = number

    def __index__(self) -> Any:
        if self.number is None:
            raise TypeError("none")
        return self.number


@dataclasses.dataclass
class Data:
    x: int = 1
    y: bool = True


def numbers(data: Any, dtype: str) -> Any:
    return numpy.array(data, dtype)


def number(value: Any, dtype: str) -> Any:
    return numpy.dtype(dtype).type(value)


def masked(data: Any, dtype: str) -> Any:
    """Hides the first item, or the only one."""
    mask = [True, False] if isinstance(data, list) else True
    found: Any = numpy.ma.array(data, mask=mask, dtype=dtype)  # type: ignore[no-untyped-call]
    return found


ONES = "11" * 32


def value_of(text: str) -> Any:
    """The value of an expression of the table."""
    return eval(text, globals())
