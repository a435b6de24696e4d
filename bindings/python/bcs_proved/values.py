"""Converts Python values to the JSON of docs/JSON.md. The format decides what each value becomes.

`Formats` reads the formats of a registry, and `json_of` converts a value of one of them. `reading` converts back.

Each format has two ways. `quick` converts values of Python's own types, by functions that call one another. What it
isn't sure of it leaves to `open`, which converts and rejects everything.
"""

from __future__ import annotations

import binascii
import dataclasses
import functools
import itertools
import json
import json.encoder
import re
import sys
from collections.abc import Callable, Generator, Mapping
from typing import Any, Optional, Union, final

from .generated import MOST_PARTS, Code, function_of
from .names import BYTES_OF_OWN_FORM

__all__ = ["Format", "Formats", "Hex", "Rejected", "json_of", "json_of_format", "name_of", "octets_of"]

# The JSON of a value nests at most this deep.
_NESTING = 100
# The library rejects a registry or format that nests deeper, whatever is in it.
_FORMAT_NESTING = 130
# No format has wider numbers, and Python doesn't print very wide ones.
_WIDEST = 128
# The items of arrays that are read element by element, in the words of the module `struct`. "O" is any object. Items
# of the second kind are rejected by their own type, and an array without items as it is.
_INTEGER_ITEMS = {*"bBhHiIlLqQnN", "O"}
_OTHER_ITEMS = {*"efdg?"}
# The limits are checked after so many items of a list, and after a string of this length.
_UNCHECKED = 1000
# What a value may be by default, since one that holds others many times may be short and have any number of nodes.
_MOST_NODES = 1 << 24
_MOST_JSON = 1 << 30
# Counting nodes ends after so many parts, since a larger value may as well be written.
_MOST_LOOKED_AT = 100_000
_HOLDERS = {dict, list, tuple}
_NO_OCTETS = {type(None), str}
# `quick` leaves longer lists and byte strings to `open`, and arrays and objects with longer JSON, since a value that
# holds others many times may have any length.
_MOST_QUICK_ITEMS = 1 << 16
_MOST_QUICK = 1 << 20
# A struct that was converted so often gets a function of its own.
_OFTEN = 50
# An error shows at most this much of a string.
_SHOWN = 80
_ADDRESS = re.compile(f"0x([0-9a-fA-F]{{1,{2 * BYTES_OF_OWN_FORM}}})")
# What writes the parts of an array or object: it comes to each part that is one, too. Where a part is rejected, it adds
# the step to it.
_Writing = Generator["_Writing", None, None]
_Quick = Callable[[Any, int], str]
# (`ensure_ascii` would turn two lone surrogates into one character)
_quoted = json.JSONEncoder(ensure_ascii=False).encode
# (the same, and undocumented)
_quoted_at_once = getattr(json.encoder, "encode_basestring", _quoted)
_SURROGATE = re.compile("[\ud800-\udfff]")


@final
@dataclasses.dataclass(frozen=True)
class Hex:
    """Bytes as hexadecimal digits of either case, for `encode`: Hex("0aff"). A str is never bytes."""

    digits: str

    def __post_init__(self) -> None:
        if not isinstance(self.digits, str):
            raise TypeError(f"Hex takes a str of digits, not {name_of(type(self.digits))}")


class Rejected(Exception):
    """A value isn't passed to the library: the format doesn't accept its type, and then `found` is that type; or the
    library couldn't tell what is wrong with it. `at` is its JSON Pointer, which `steps` has from its end."""

    def __init__(self, reason: str, message: str, found: Optional[type] = None) -> None:
        super().__init__(reason, message, found)
        self.reason = reason
        self.message = message if found is None else f"{message}, not {name_of(found)}"
        self.is_type = found is not None
        # from the value to the one that holds it all
        self.steps: list[Union[str, int]] = []

    @property
    def at(self) -> str:
        return "".join(f"/{str(step).replace('~', '~0').replace('/', '~1')}" for step in reversed(self.steps))


class _Slow(Exception):
    """`quick` leaves a value to `open`."""


class _TooManyNodes(Exception):
    """`open` gives up a value, wherever it is in it."""


class _TooLong(Exception):
    """The same."""


def name_of(found: type) -> str:
    return found.__qualname__ if found.__module__ == "builtins" else f"{found.__module__}.{found.__qualname__}"


class Format:
    """Converts the values of one format."""

    takes = ""

    def open(self, value: Any, out: _Pieces) -> Optional[_Writing]:
        """Writes a scalar, or returns what writes an array or object. The value itself is copied first, since
        converting its parts may run the caller's code."""
        raise NotImplementedError

    def quick(self, value: Any, levels: int) -> str:
        """The JSON that `open` would write, with at most `levels` arrays and objects in one another; or raises _Slow.
        It reads exact types of Python only, so it runs none of the caller's code."""
        raise _Slow

    def code(self, number: int) -> Code:
        """What `quick` does, in a function that is made for a struct: vN is the value and fN this format, and `room`
        characters are left."""
        return Code([f"t{number} = f{number}.quick(v{number}, levels)", *_measured(number)], f"{{t{number}}}")

    def resolved(self) -> Format:
        """What a container holds, or else the format itself."""
        return self

    def wrong(self, value: Any) -> Rejected:
        return Rejected("WrongType", self.takes, type(value))


def _measured(number: int) -> list[str]:
    return [f"room -= len(t{number})", "if room < 0: raise Slow"]


class _Pieces(list[str]):
    """JSON that is written piece by piece, for a value with a maximum number of nodes. Without one, the bytes of a list
    of U8 are no nodes."""

    def __init__(self, nodes: Optional[int]) -> None:
        super().__init__()
        # (a node has at most five pieces, like bytes that are the key or value in a map)
        most = _MOST_NODES if nodes is None else nodes
        self._most = 5 * most + 5
        # (the value is a node, too)
        self._items = most - 1
        self._has_octets = nodes is not None
        self._measured = 0
        self._length = 0

    def expect(self, nodes: int = 0) -> None:
        """Counts nodes that won't have pieces of their own. Raises _TooManyNodes or _TooLong."""
        self._most -= 5 * nodes
        if len(self) > self._most:
            raise _TooManyNodes
        self._length += sum(map(len, self[self._measured :]))
        self._measured = len(self)
        if self._length > _MOST_JSON:
            raise _TooLong

    def expect_items(self, count: int) -> None:
        """Counts items of a list that will have pieces of their own. Each is a node at least."""
        self._items -= count
        if self._items < 0:
            raise _TooManyNodes

    def put_text(self, text: str) -> None:
        """Adds a string or digits, which may be long."""
        self.append(text)
        if len(text) > _UNCHECKED:
            self.expect()

    def expect_octets(self, count: int) -> None:
        """Counts the bytes of a list of U8."""
        self.expect(count if self._has_octets else 0)


def json_of(format: Format, value: Any, nodes: Optional[int]) -> bytes:
    """The JSON of a value, unless it surely has more nodes than this, or without a number, than by default. Raises
    Rejected."""
    try:
        text = format.quick(value, _NESTING)
        # (each node has a character at least)
        if nodes is None or len(text) <= nodes:
            return text.encode()
    except (_Slow, RecursionError, UnicodeEncodeError):
        pass
    return _slow_json_of(format, value, nodes)


def _slow_json_of(format: Format, value: Any, nodes: Optional[int]) -> bytes:
    out = _Pieces(nodes)
    most = _MOST_NODES if nodes is None else nodes
    try:
        if _Counting().leaves(value, _NESTING) > most:
            raise _TooManyNodes
        _write(format, value, out)
    except _TooManyNodes:
        raise Rejected("TooManyNodes", f"the value has more nodes than the limit, {most}") from None
    except _TooLong:
        raise Rejected("TooLong", "the JSON of the value is above 1 GiB") from None
    text = "".join(out)
    # (a large value has little room for its pieces beside its text)
    out.clear()
    try:
        return text.encode()
    except UnicodeEncodeError:
        raise Rejected("NotJson", "a name in the value has half of a surrogate pair, which isn't Unicode") from None


class _Counting:
    """Counts the parts of a value that hold no others, before anything is written. Each is a node at least, but for the
    items of a list that may be bytes. It looks at exact types of Python only, so it runs none of the caller's code,
    and once into a part that is shared."""

    def __init__(self) -> None:
        self._known: dict[int, int] = {}
        self._left = _MOST_LOOKED_AT

    def leaves(self, value: Any, levels: int) -> int:
        """A number that isn't above theirs."""
        kind = type(value)
        if kind not in _HOLDERS or not value or not levels:
            return 1
        if id(value) in self._known:
            return self._known[id(value)]
        parts = [*value.values()] if kind is dict else [*value]
        kinds = {*map(type, parts)}
        is_flat = _HOLDERS.isdisjoint(kinds)
        # (it may hold itself, and is rejected for that later)
        self._known[id(value)] = 1
        count = len(parts) if is_flat and (kind is dict or kinds <= _NO_OCTETS) else 0
        for part in () if is_flat else parts:
            self._left -= 1
            if self._left < 0:
                break
            count += self.leaves(part, levels - 1)
        self._known[id(value)] = max(1, count)
        return max(1, count)


def _write(format: Format, value: Any, out: _Pieces) -> None:
    """Writes the JSON of any value. It doesn't recurse, so deep values need no stack."""
    inner = format.open(value, out)
    levels = [] if inner is None else [inner]
    while levels:
        if len(levels) > _NESTING:
            raise Rejected("TooNested", f"arrays and objects are nested more than {_NESTING} levels deep")
        out.expect()
        try:
            inner = next(levels[-1], None)
        except Rejected as fault:
            raise _with_steps(levels[:-1], fault) from fault.__cause__
        if inner is None:
            levels.pop()
        else:
            levels.append(inner)


def _with_steps(levels: list[_Writing], fault: Rejected) -> Rejected:
    """Passes a rejection through what it is in."""
    for level in reversed(levels):
        try:
            level.throw(fault)
        except Rejected:
            continue
    return fault


def _nothing() -> _Writing:
    yield from ()


def _text_of(value: str) -> str:
    """The JSON of a string, even if its class has another `__str__`."""
    return _quoted(value if type(value) is str else str.__str__(value))


def _items_of(value: Any) -> Optional[list[Any]]:
    """A copy of the items of a list or tuple, even if its class has another `__iter__`."""
    if isinstance(value, list):
        return list.copy(value)
    return [*tuple.__iter__(value)] if isinstance(value, tuple) else None


def _view_of(value: Any) -> Optional[memoryview]:
    """The buffer of an array. numpy's and ctypes' single numbers and dates have buffers too, but no length."""
    if not hasattr(type(value), "__len__"):
        return None
    try:
        return memoryview(value)
    except (TypeError, ValueError, BufferError):
        return None


def _item_of(view: memoryview) -> str:
    """What an item of a buffer is, whatever its byte order."""
    return view.format.lstrip("@=<>!")


def _is_octets(view: memoryview) -> bool:
    return view.ndim == 1 and view.itemsize == 1 and _item_of(view) in ("B", "c")


def octets_of(value: Any) -> Optional[bytes]:
    """The bytes of a bytes-like object. A masked array isn't one, since it hides some of its items."""
    if isinstance(value, bytes):
        return bytes.__getitem__(value, slice(None))
    view = _view_of(value)
    if view is None:
        return None
    with view:
        return view.tobytes() if _is_octets(view) and not hasattr(value, "mask") else None


def _put_octets(value: Any, out: _Pieces, are_nodes: bool = False) -> bool:
    """Writes bytes, or Hex. Large ones are hundreds of megabytes, so their digits aren't copied here."""
    octets = value if type(value) is bytes else octets_of(value)
    if octets is None and type(value) is not Hex:
        return False
    if are_nodes:
        out.expect_octets(len(value.digits) // 2 if octets is None else len(octets))
    if octets is None:
        out.put_text(_text_of(value.digits))
    else:
        out.append('"')
        out.put_text(octets.hex())
        out.append('"')
    return True


def _elements_of(value: Any) -> Optional[list[Any]]:
    """The elements of an array. Bytes-like objects aren't arrays of numbers."""
    view = _view_of(value)
    if view is None:
        return None
    with view:
        item = _item_of(view)
        if not view.shape or _is_octets(view) or item not in _INTEGER_ITEMS | _OTHER_ITEMS:
            return None
        count = view.shape[0]
        if item in _OTHER_ITEMS and 0 in view.shape:
            return None
    try:
        found = list(itertools.islice(value, count + 1))
    except (TypeError, NotImplementedError):
        return None
    return found if len(found) == count else None


class _Unit(Format):
    takes = "UNIT takes None"

    def open(self, value: Any, out: _Pieces) -> Optional[_Writing]:
        if value is not None:
            raise self.wrong(value)
        out.append("null")
        return None

    def quick(self, value: Any, levels: int) -> str:
        if value is not None:
            raise _Slow
        return "null"


class _Bool(Format):
    takes = "BOOL takes a bool"

    def open(self, value: Any, out: _Pieces) -> Optional[_Writing]:
        if value is not True and value is not False:
            raise self.wrong(value)
        out.append("true" if value else "false")
        return None

    def quick(self, value: Any, levels: int) -> str:
        if value is not True and value is not False:
            raise _Slow
        return "true" if value else "false"


class _Text(Format):
    takes = "STR takes a str"

    def open(self, value: Any, out: _Pieces) -> Optional[_Writing]:
        if not isinstance(value, str):
            raise self.wrong(value)
        text = _text_of(value)
        if not text.isascii() and _SURROGATE.search(text):
            raise Rejected("NotJson", "STR takes Unicode, and this str has half of a surrogate pair")
        out.put_text(text)
        return None

    def quick(self, value: Any, levels: int) -> str:
        if type(value) is not str:
            raise _Slow
        return _quoted_at_once(value)

    def code(self, number: int) -> Code:
        lines = [f"if type(v{number}) is not str: raise Slow", f"t{number} = quoted(v{number})", *_measured(number)]
        return Code(lines, f"{{t{number}}}")


class _Unsupported(Format):
    """`F32`, `F64`, `CHAR`, and newtypes that hold themselves. The library rejects every value of these."""

    def open(self, value: Any, out: _Pieces) -> Optional[_Writing]:
        out.append("null")
        return None


class _Number(Format):
    """Numbers become strings of digits, since the library's JSON numbers end at 64 bits."""

    def __init__(self, word: str, bits: int, is_signed: bool) -> None:
        self._word = word
        self.takes = f"{word} takes an int"
        self.least = -(2 ** (bits - 1)) if is_signed else 0
        self.most = self.least + 2**bits - 1

    def open(self, value: Any, out: _Pieces) -> Optional[_Writing]:
        number = self.int_of(value)
        # (the library checks the range)
        if number.bit_length() > _WIDEST:
            raise self._out_of_range()
        out.append(f'"{number}"')
        return None

    def quick(self, value: Any, levels: int) -> str:
        if type(value) is not int or not self.least <= value <= self.most:
            raise _Slow
        return f'"{value}"'

    def code(self, number: int) -> Code:
        least, most = self.least, self.most
        line = f"if type(v{number}) is not int or not {least} <= v{number} <= {most}: raise Slow"
        return Code([line], f'"{{v{number}}}"')

    def int_of(self, value: Any) -> int:
        if type(value) is int:
            return value
        if isinstance(value, int) and not isinstance(value, bool):
            return int.__index__(value)
        # (numpy.bool_ has an __index__ in some versions, and an array of numpy that hides its one item)
        if type(value).__name__ in ("bool", "bool_") or hasattr(value, "mask"):
            raise self.wrong(value)
        try:
            # (`operator.index` makes an int of a bool)
            number = type(value).__index__(value)
        except (AttributeError, TypeError) as fault:
            raise self.wrong(value) from fault
        if isinstance(number, bool) or not isinstance(number, int):
            raise self.wrong(value)
        return int.__index__(number)

    def in_range(self, value: Any) -> int:
        """The same, where the library can't check the range."""
        number = self.int_of(value)
        if not self.least <= number <= self.most:
            raise self._out_of_range()
        return number

    def _out_of_range(self) -> Rejected:
        return Rejected("BadNumber", f"expected an integer from {self.least} to {self.most} ({self._word})")


class _OwnInteger(_Number):
    """A container of 32 bytes that is an integer."""

    def __init__(self, word: str, is_signed: bool) -> None:
        super().__init__(word, 8 * BYTES_OF_OWN_FORM, is_signed)
        self._is_signed = is_signed

    def open(self, value: Any, out: _Pieces) -> Optional[_Writing]:
        number = self.in_range(value)
        out.append(self._digits_of(number))
        return None

    def quick(self, value: Any, levels: int) -> str:
        if type(value) is not int or not self.least <= value <= self.most:
            raise _Slow
        return self._digits_of(value)

    def code(self, number: int) -> Code:
        return Format.code(self, number)

    def _digits_of(self, number: int) -> str:
        return f'"{number.to_bytes(BYTES_OF_OWN_FORM, "little", signed=self._is_signed).hex()}"'


class _Address(Format):
    """A container of 32 bytes that is an address."""

    def __init__(self, word: str) -> None:
        self._word = word
        self.takes = f'{word} takes a str "0x.." or {BYTES_OF_OWN_FORM} bytes'

    def open(self, value: Any, out: _Pieces) -> Optional[_Writing]:
        if isinstance(value, str):
            out.append(f'"{self._digits_of(str.__str__(value))}"')
        elif not _put_octets(value, out):
            raise self.wrong(value)
        return None

    def quick(self, value: Any, levels: int) -> str:
        if type(value) is not str:
            return _octets_at_once(value)
        if len(value) != 2 + 2 * BYTES_OF_OWN_FORM or value[:2] != "0x":
            raise _Slow
        digits = value[2:]
        try:
            # (`fromhex` skips blanks)
            binascii.unhexlify(digits)
        except ValueError:
            raise _Slow from None
        return f'"{digits}"'

    def code(self, number: int) -> Code:
        digits = 2 + 2 * BYTES_OF_OWN_FORM
        lines = [
            f"if type(v{number}) is str and len(v{number}) == {digits} and v{number}[:2] == '0x':",
            f"    t{number} = v{number}[2:]",
            f"    try: unhexlify(t{number})",
            "    except Errors: raise Slow from None",
            f"else: t{number} = octets(v{number})[1:-1]",
            *_measured(number),
        ]
        return Code(lines, f'"{{t{number}}}"')

    def _digits_of(self, text: str) -> str:
        found = _ADDRESS.fullmatch(text)
        if found is None:
            shown = f", not {ascii(text)}" if len(text) <= _SHOWN else ""
            raise Rejected("BadHex", f"{self._word} takes 0x and 1 to {2 * BYTES_OF_OWN_FORM} digits{shown}")
        return found[1].zfill(2 * BYTES_OF_OWN_FORM)


class _Octets(Format):
    """BYTES, and SEQ and TUPLEARRAY of U8, of which each byte is a node. The library checks the number of bytes."""

    def __init__(self, word: str) -> None:
        self.takes = f"{word} takes bytes, or Hex(…) for digits"
        self._are_nodes = word != "BYTES"

    def open(self, value: Any, out: _Pieces) -> Optional[_Writing]:
        if not isinstance(value, (list, tuple)) and _put_octets(value, out, self._are_nodes):
            return None
        items = _items_of(value)
        if items is None:
            items = _elements_of(value)
        if items is None:
            raise self.wrong(value)
        if self._are_nodes:
            out.expect_octets(len(items))
        out += ['"', _octets_of_items(items).hex(), '"']
        return None

    def quick(self, value: Any, levels: int) -> str:
        return _octets_at_once(value)


def _octets_at_once(value: Any) -> str:
    if type(value) is not bytes or len(value) > _MOST_QUICK_ITEMS:
        raise _Slow
    return f'"{value.hex()}"'


def _octets_of_items(items: list[Any]) -> bytes:
    octets = bytearray()
    try:
        if {*map(type, items)} <= {int} and 0 <= min(items, default=0) and max(items, default=0) <= _U8.most:
            return bytes(items)
        for item in items:
            octets.append(_U8.in_range(item))
    except Rejected as fault:
        fault.steps.append(len(octets))
        raise
    return bytes(octets)


class _List(Format):
    """SEQ and TUPLEARRAY of other formats. The library checks the number of items."""

    def __init__(self, word: str, element: Format) -> None:
        self._element = element
        self.takes = f"{word} takes a list"

    def open(self, value: Any, out: _Pieces) -> Optional[_Writing]:
        items = _items_of(value)
        if items is None and isinstance(self._element.resolved(), (_Number, _List, _Octets)):
            items = _elements_of(value)
        if items is None:
            raise self.wrong(value)
        if not (type(self._element) is _Number and _are_plain(items)):
            out.expect_items(len(items))
            return self._writing(items, out)
        out.expect(len(items))
        out.append(_numbers_at_once(items))
        return None

    def quick(self, value: Any, levels: int) -> str:
        if type(value) is not list or not levels or len(value) > _MOST_QUICK_ITEMS:
            raise _Slow
        if not value:
            return "[]"
        if type(self._element) is not _Number:
            return self._quick_parts(value, levels - 1)
        # (another thread may change the list after it was checked)
        items = value.copy()
        if not _are_plain(items):
            raise _Slow
        return _numbers_at_once(items)

    def _quick_parts(self, items: list[Any], levels: int) -> str:
        """It stops at the first part that is too much: a value that holds others many times takes little memory, and
        its JSON may take more than there is."""
        texts, room, quick = [], _MOST_QUICK, self._element.resolved().quick
        for item in items:
            text = quick(item, levels)
            room -= len(text)
            if room < 0:
                raise _Slow
            texts.append(text)
        return f"[{','.join(texts)}]"

    def _writing(self, items: list[Any], out: _Pieces) -> _Writing:
        number, element = 0, self._element
        out.append("[")
        try:
            for number, item in enumerate(items):
                if number:
                    out.append(",")
                inner = element.open(item, out)
                if inner is not None:
                    yield inner
                elif number % _UNCHECKED == _UNCHECKED - 1:
                    yield _nothing()
        except Rejected as fault:
            fault.steps.append(number)
            raise
        out.append("]")


def _numbers_at_once(items: list[int]) -> str:
    return '["' + '","'.join(map(str, items)) + '"]' if items else "[]"


def _are_plain(items: list[Any]) -> bool:
    """Whether all are ints that aren't too wide. Most lists of numbers are, and they are converted much faster."""
    return {*map(type, items)} <= {int} and max(map(int.bit_length, items), default=0) <= _WIDEST


class _Row(Format):
    """TUPLE, a tuple struct, a tuple variant's payload, and an entry of a MAP."""

    def __init__(self, formats: list[Format], takes: str) -> None:
        self._formats = formats
        self.takes = takes

    def open(self, value: Any, out: _Pieces) -> Optional[_Writing]:
        items = _items_of(value)
        if items is None:
            raise self.wrong(value)
        return self._writing(items, out)

    def quick(self, value: Any, levels: int) -> str:
        if type(value) not in (list, tuple) or not levels or len(value) != len(self._formats):
            raise _Slow
        texts, room, levels = [], _MOST_QUICK, levels - 1
        for format, part in zip(self._formats, value):
            text = format.quick(part, levels)
            room -= len(text)
            if room < 0:
                raise _Slow
            texts.append(text)
        return f"[{','.join(texts)}]"

    def _writing(self, items: list[Any], out: _Pieces) -> _Writing:
        """If the number of items is wrong, the library gets nulls, and rejects their number."""
        number = 0
        out.append("[")
        formats = self._formats if len(items) == len(self._formats) else [_UNSUPPORTED] * len(items)
        try:
            for number, item in enumerate(items):
                if number:
                    out.append(",")
                inner = formats[number].open(item, out)
                if inner is not None:
                    yield inner
        except Rejected as fault:
            fault.steps.append(number)
            raise
        out.append("]")


class _Map(Format):
    takes = "MAP takes a dict or a list of pairs"

    def __init__(self, key: Format, value: Format) -> None:
        self._entries = _List("MAP", _Row([key, value], "an entry of a MAP takes a pair"))

    def open(self, value: Any, out: _Pieces) -> Optional[_Writing]:
        if isinstance(value, Mapping):
            value = [(key, value[key]) for key in [*value]]
        elif not isinstance(value, (list, tuple)):
            raise self.wrong(value)
        return self._entries.open(value, out)

    def quick(self, value: Any, levels: int) -> str:
        return self._entries.quick([*value.items()] if type(value) is dict else value, levels)


class _Object(Format):
    """Formats whose JSON is an object."""

    _word = ""

    def _members_of(self, value: Any) -> dict[str, Any]:
        """A copy of the members. Names are str: `True`, `None` and `1.0` aren't converted."""
        if type(value) is dict:
            members = value.copy()
        elif isinstance(value, Mapping):
            names = [*value]
            members = {name: value[name] for name in names}
            if len(members) < len(names):
                raise self.wrong(value)
        else:
            raise self.wrong(value)
        kinds = {*map(type, members)}
        if kinds <= {str}:
            return members
        for kind in kinds:
            if not issubclass(kind, str):
                raise Rejected("WrongType", f"{self._word} takes names that are str", kind)
        named = {str.__str__(name): part for name, part in members.items()}
        if len(named) < len(members):
            raise self.wrong(value)
        return named


class _Struct(_Object):
    """A struct, and a struct variant's payload. The library rejects missing and unknown fields."""

    _word = "STRUCT"
    takes = "STRUCT takes a dict"

    def __init__(self, fields: list[tuple[str, Format]]) -> None:
        # (`is` compares names that are interned, such as those in a program's text)
        named = [(sys.intern(name), format) for name, format in fields]
        self._fields = [(name, f"{{{_quoted(name)}:", f",{_quoted(name)}:", format) for name, format in named]
        self._uses = 0

    @functools.cached_property
    def _quick(self) -> list[tuple[str, str, Format]]:
        return [(name, f"{_quoted(name)}:", format.resolved()) for name, _, _, format in self._fields]

    def open(self, value: Any, out: _Pieces) -> Optional[_Writing]:
        return self._writing(self._members_of(value), out)

    def quick(self, value: Any, levels: int) -> str:
        self._uses += 1
        if self._uses > _OFTEN:
            setattr(self, "quick", self._made_quick() or self._generic_quick)
        return self._generic_quick(value, levels)

    def _generic_quick(self, value: Any, levels: int) -> str:
        if type(value) is not dict or not levels or len(value) != len(self._quick):
            raise _Slow
        # (one step, since another thread may change the dict)
        names = [*value]
        if {*map(type, names)} != {str}:
            raise _Slow
        texts, room, levels = [], _MOST_QUICK, levels - 1
        try:
            for name, head, part in self._quick:
                text = head + part.quick(value[name], levels)
                room -= len(text)
                if room < 0:
                    raise _Slow
                texts.append(text)
        except KeyError:
            raise _Slow from None
        return f"{{{','.join(texts)}}}"

    def _made_quick(self) -> Optional[_Quick]:
        """A function for dicts whose names are those of the registry and in its order, as in most values. There is none
        if the interpreter makes no functions, or has no room for that."""
        known: dict[str, Any] = {**_OF_CODE, "generic": self._generic_quick}
        lines, pieces = [], []
        for number, (name, head, part) in enumerate(self._quick):
            code = part.code(number)
            known |= {f"n{number}": name, f"h{number}": f"{',' if number else '{'}{head}", f"f{number}": part}
            lines += code.lines
            pieces.append(f"{{h{number}}}{code.expression}")
        if not 0 < len(pieces) <= MOST_PARTS:
            return None
        numbers = range(len(pieces))
        first_lines = [
            f"if type(value) is not dict or not levels or len(value) != {len(pieces)}: raise Slow",
            # (another thread may change the dict, so all of it is read in one step)
            f"try: {''.join(f'(k{number}, v{number}), ' for number in numbers)} = value.items()",
            "except Errors: raise Slow from None",
            f"if not ({' and '.join(f'k{number} is n{number}' for number in numbers)}): return generic(value, levels)",
            f"levels, room = levels - 1, {_MOST_QUICK}",
        ]
        try:
            text = f"return f'{''.join(pieces)}}}}}'"
            made: _Quick = function_of("value, levels", [*first_lines, *lines, text], known)
        except (RuntimeError, MemoryError):
            return None
        return made

    def _writing(self, members: dict[str, Any], out: _Pieces) -> _Writing:
        name, is_first = "", True
        try:
            for name, first_head, head, format in self._fields:
                if name in members:
                    out.append(first_head if is_first else head)
                    is_first = False
                    inner = format.open(members.pop(name), out)
                    if inner is not None:
                        yield inner
        except Rejected as fault:
            fault.steps.append(name)
            raise
        for name in members:
            out.append(f"{'{' if is_first else ','}{_quoted(name)}:null")
            is_first = False
        out.append("{}" if is_first else "}")


class _Tagged(_Object):
    """An object with one member, whose name says what its value is. The library rejects unknown names."""

    def __init__(self, word: str, variants: dict[str, Format]) -> None:
        self._word = word
        self._variants = variants

    @functools.cached_property
    def _quick(self) -> dict[str, tuple[str, Format]]:
        return {name: (f"{{{_quoted(name)}:", part.resolved()) for name, part in self._variants.items()}

    def _writing(self, members: dict[str, Any], out: _Pieces) -> _Writing:
        name, before = "", "{"
        try:
            for name, part in members.items():
                out.append(f"{before}{_quoted(name)}:")
                before = ","
                inner = self._variants.get(name, _UNSUPPORTED).open(part, out)
                if inner is not None:
                    yield inner
        except Rejected as fault:
            fault.steps.append(name)
            raise
        out.append("}" if members else "{}")


def _only_item_of(value: dict[Any, Any]) -> tuple[Any, Any]:
    try:
        (item,) = value.items()
    except (ValueError, RuntimeError):
        raise _Slow from None
    return item


class _Enum(_Tagged):
    takes = "ENUM takes a variant's name or a dict of one variant"

    def open(self, value: Any, out: _Pieces) -> Optional[_Writing]:
        if isinstance(value, str):
            out.append(_text_of(value))
            return None
        return self._writing(self._members_of(value), out)

    def quick(self, value: Any, levels: int) -> str:
        if type(value) is str:
            return _quoted_at_once(value)
        if type(value) is not dict or not levels:
            raise _Slow
        name, part = _only_item_of(value)
        known = self._quick.get(name) if type(name) is str else None
        if known is None:
            raise _Slow
        return f"{known[0]}{known[1].quick(part, levels - 1)}}}"


class _Option(_Tagged):
    """None or {"some": value}; or the value alone, if `is_plain` says that it can't be mistaken for one of these."""

    def __init__(self, inner: Format, is_plain: bool) -> None:
        super().__init__("OPTION", {"some": inner})
        self._inner = inner
        self._is_plain = is_plain
        self.takes = f'OPTION takes None{", a value" if is_plain else ""} or {{"some": value}}'

    def open(self, value: Any, out: _Pieces) -> Optional[_Writing]:
        if value is None:
            out.append("null")
            return None
        if not self._is_plain:
            return self._writing(self._members_of(value), out)
        if isinstance(value, Mapping):
            # (it is read once, since reading it may run the caller's code)
            value = self._members_of(value)
            if [*value] == ["some"] or not isinstance(self._inner.resolved(), _Object):
                return self._writing(value, out)
        return self._writing({"some": value}, out)

    def quick(self, value: Any, levels: int) -> str:
        if value is None:
            return "null"
        if type(value) is dict:
            name, value = _only_item_of(value)
            if type(name) is not str or name != "some":
                raise _Slow
        elif not self._is_plain:
            raise _Slow
        if not levels:
            raise _Slow
        return f'{{"some":{self._inner.resolved().quick(value, levels - 1)}}}'


class _Named(Format):
    """A container. It is read when the first value needs it, since containers may hold themselves."""

    def __init__(self, formats: Formats, name: str) -> None:
        self._formats = formats
        self._name = name
        self._held: Optional[Format] = None

    def open(self, value: Any, out: _Pieces) -> Optional[_Writing]:
        return (self._held or self.resolved()).open(value, out)

    def quick(self, value: Any, levels: int) -> str:
        return (self._held or self.resolved()).quick(value, levels)

    def resolved(self) -> Format:
        if self._held is None:
            self._held = self._formats.container(self._name)
        return self._held


def _is_like_some(kind: str, inner: Any) -> bool:
    """Whether the dict of a struct or enum may be {"some": value}."""
    names = [name for part in (inner if kind == "STRUCT" else inner.values()) for name in part]
    return names == ["some"] if kind == "STRUCT" else "some" in names


# What the functions that are made refer to.
_OF_CODE: dict[str, Any] = {
    **{"Slow": _Slow, "Errors": (ValueError, RuntimeError), "quoted": _quoted_at_once, "octets": _octets_at_once},
    **{"unhexlify": binascii.unhexlify, "type": type, "len": len, "dict": dict, "int": int, "str": str},
}
_UNSUPPORTED = _Unsupported()
_UNSUPPORTED_WORDS = ("CHAR", "F32", "F64")
_U8 = _Number("U8", 8, False)
# The formats without parts.
_WORDS: dict[str, Format] = {
    **{"UNIT": _Unit(), "BOOL": _Bool(), "STR": _Text(), "BYTES": _Octets("BYTES")},
    **{f"{sign}{bits}": _Number(f"{sign}{bits}", bits, sign == "I") for sign in "UI" for bits in (8, 16, 32, 64, 128)},
    **{word: _UNSUPPORTED for word in _UNSUPPORTED_WORDS},
}


class Formats:
    """The formats of a registry. The library has checked the registry, and each format that a caller names."""

    def __init__(self, containers: Mapping[str, Any], own_forms: Mapping[str, str]) -> None:
        """`own_forms` has the kinds of the containers with a form of their own."""
        self._containers = containers
        self._named: dict[str, Format] = {}
        self._own = {name: _own_format(name, kind) for name, kind in own_forms.items()}

    def format(self, format: Any) -> Format:
        """Of a format's JSON."""
        if isinstance(format, str):
            return _WORDS[format]
        ((kind, inner),) = format.items()
        if kind == "TYPENAME":
            return self._own.get(inner) or self._named.setdefault(inner, _Named(self, inner))
        if kind == "OPTION":
            return _Option(self.format(inner), self.is_plain(inner))
        if kind == "TUPLE":
            return self._row(kind, inner)
        if kind == "MAP":
            return _Map(self.format(inner["KEY"]), self.format(inner["VALUE"]))
        element = inner["CONTENT"] if kind == "TUPLEARRAY" else inner
        return _Octets(f"{kind} of U8") if element == "U8" else _List(kind, self.format(element))

    def is_plain(self, format: Any) -> bool:
        """Whether an option of this format may be written as None or its value: the value is never None, and never a
        dict that could also be {"some": value}. The loop follows newtypes of newtypes."""
        seen = set()
        while not isinstance(format, str):
            ((kind, inner),) = format.items()
            if kind != "TYPENAME":
                return kind in ("SEQ", "TUPLE", "TUPLEARRAY")
            if inner in seen:
                return False
            seen.add(inner)
            container = self._containers[inner]
            if container == "UNITSTRUCT":
                return False
            ((kind, inner),) = container.items()
            if kind != "NEWTYPESTRUCT":
                return kind == "TUPLESTRUCT" or not _is_like_some(kind, inner)
            format = inner
        return format != "UNIT" and format not in _UNSUPPORTED_WORDS

    def container(self, name: str) -> Format:
        """What a container holds. The loop follows newtypes of newtypes."""
        seen = set()
        while name not in seen:
            seen.add(name)
            container = self._containers[name]
            if container == "UNITSTRUCT":
                return _WORDS["UNIT"]
            ((kind, inner),) = container.items()
            if kind != "NEWTYPESTRUCT":
                return self._content(kind, inner)
            if isinstance(inner, str) or "TYPENAME" not in inner:
                return self.format(inner)
            name = inner["TYPENAME"]
            if name in self._own:
                return self._own[name]
        return _UNSUPPORTED

    def _content(self, kind: str, inner: Any) -> Format:
        if kind == "NEWTYPE":
            return self.format(inner)
        if kind in ("TUPLESTRUCT", "TUPLE"):
            return self._row(kind, inner)
        if kind == "STRUCT":
            return _Struct([(name, self.format(format)) for field in inner for name, format in field.items()])
        carried = {name: payload for variant in inner.values() for name, payload in variant.items()}
        return _Enum(kind, {name: self._payload(payload) for name, payload in carried.items()})

    def _payload(self, payload: Any) -> Format:
        if isinstance(payload, str):
            return _WORDS[payload]
        ((kind, inner),) = payload.items()
        return self._content(kind, inner)

    def _row(self, kind: str, formats: list[Any]) -> Format:
        return _Row([self.format(format) for format in formats], f"{kind} takes a list or tuple")


def _own_format(name: str, kind: str) -> Format:
    return _Address(name) if kind == "address" else _OwnInteger(name, kind[0] == "i")


def json_of_format(format: Mapping[str, Any]) -> bytes:
    """The JSON of a registry or of a format. It is copied first, since `json` would make names of `True` and `None`."""
    copied: list[Any] = [format]
    inner: list[tuple[Any, int]] = [(copied, 0)]
    while inner:
        copy, depth = inner.pop()
        for place, part in copy.items() if isinstance(copy, dict) else enumerate(copy):
            if isinstance(part, (Mapping, list, tuple)):
                # (a dict may hold itself)
                copy[place] = _copy_of(part) if depth < _FORMAT_NESTING else None
                inner.append((copy[place] or [], depth + 1))
            elif not (part is None or isinstance(part, (bool, int, float, str))):
                raise TypeError(f"a registry or format has dicts, lists, str and int, and no {name_of(type(part))}")
    text = json.dumps(copied[0], allow_nan=False, ensure_ascii=False, separators=(",", ":"))
    return text.encode("utf-8", "surrogatepass")


def _copy_of(part: Any) -> Any:
    if not isinstance(part, Mapping):
        return _items_of(part)
    copy = {_name_in_format(name): part[name] for name in [*part]}
    if len(copy) < len(part):
        raise TypeError("two names of a registry or format are equal")
    return copy


def _name_in_format(name: Any) -> str:
    """Names are str. The numbers of an enum's variants may be int."""
    if isinstance(name, int) and not isinstance(name, bool):
        return str(int.__index__(name))
    if not isinstance(name, str):
        raise TypeError(f"names in a registry or format are str, not {name_of(type(name))}")
    return str.__str__(name)
