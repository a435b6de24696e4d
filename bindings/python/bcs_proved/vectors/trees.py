"""Values as trees, their candidate bytes with the pieces of these, and their JSON. The verdict comes from the library
later: it refuses a candidate that is wrong."""

from __future__ import annotations

import dataclasses
from typing import Any, Optional, Union

from .shapes import Shape
from .tables import UNSUPPORTED, WIDTHS

Data = Union[None, bool, int, str, bytes]


@dataclasses.dataclass(eq=False)
class Tree:
    """A value of a shape: a leaf has its data, and an ENUM the number of its part. The parts of a MAP are keys and
    values in turn, in the order of the keys' bytes."""

    shape: Shape
    data: Data = None
    parts: list[Tree] = dataclasses.field(default_factory=list)


@dataclasses.dataclass
class Piece:
    """Bytes of a value from `start` to `end`: a leaf, the tag of an option, a length, or the number of a variant.

    `content_end` is where what the piece belongs to ends. The entries of a MAP are a piece too: `marks` are the places
    of its keys and values, and the end."""

    what: str
    shape: Shape
    start: int
    end: int
    number: int = 0
    content_end: int = 0
    marks: list[int] = dataclasses.field(default_factory=list)


def uleb(number: int) -> bytes:
    groups = bytearray()
    while number > 127:
        groups.append(number & 127 | 128)
        number >>= 7
    return bytes(groups) + bytes([number])


class Candidate:
    """The bytes that a value should have, with their pieces."""

    def __init__(self, tree: Tree) -> None:
        self._bytes = bytearray()
        self.pieces: list[Piece] = []
        # Values may nest deeper than Python's calls, so what is left to do is in a list.
        self._todo: list[Union[Tree, Piece]] = [tree]
        while self._todo:
            step = self._todo.pop()
            if isinstance(step, Piece):
                # what it belongs to has come to an end, or a map to its next key or value
                step.content_end = len(self._bytes)
                step.marks.append(len(self._bytes))
            else:
                self._put(step)
        self.data = bytes(self._bytes)

    def _piece(self, what: str, shape: Shape, data: bytes, number: int = 0) -> Piece:
        start = len(self._bytes)
        self._bytes += data
        piece = Piece(what, shape, start, len(self._bytes), number, len(self._bytes))
        self.pieces.append(piece)
        return piece

    def _put(self, tree: Tree) -> None:
        shape, data = tree.shape, tree.data
        kind = shape.kind
        if isinstance(data, (str, bytes)):
            content = data.encode() if isinstance(data, str) else data
            length = self._piece("length", shape, uleb(len(content)), len(content))
            self._piece(kind, shape, content)
            length.content_end = len(self._bytes)
        elif kind in WIDTHS and isinstance(data, int):
            self._piece(kind, shape, (data % (1 << 8 * WIDTHS[kind])).to_bytes(WIDTHS[kind], "little"))
        elif kind in UNSUPPORTED:
            self._piece(kind, shape, UNSUPPORTED[kind])
        elif kind == "BOOL":
            self._piece(kind, shape, bytes([data is True]))
        elif kind == "MAP":
            self._put_map(tree)
        else:
            self._put_parts(tree)

    def _put_parts(self, tree: Tree) -> None:
        shape, kind = tree.shape, tree.shape.kind
        if kind == "OPTION":
            self._piece(kind, shape, bytes([len(tree.parts)]))
        elif kind == "SEQ":
            self._piece("length", shape, uleb(len(tree.parts)), len(tree.parts))
        elif kind == "ENUM" and isinstance(tree.data, int):
            number = shape.numbers[tree.data]
            self._todo.append(self._piece("variant", shape, uleb(number), number))
        self._todo += reversed(tree.parts)

    def _put_map(self, tree: Tree) -> None:
        start, count = len(self._bytes), len(tree.parts) // 2
        self._piece("length", tree.shape, uleb(count), count)
        whole = Piece("MAP", tree.shape, start, start)
        self.pieces.append(whole)
        self._todo.append(whole)
        for part in reversed(tree.parts):
            self._todo += [part, whole]


def json_of(tree: Tree, changed: Optional[Tree] = None, to: Any = None) -> Any:
    """The JSON of a value, in which that of one part may be another."""
    if tree is changed:
        return to
    shape, kind, data = tree.shape, tree.shape.kind, tree.data
    if kind in WIDTHS and isinstance(data, int):
        return data if WIDTHS[kind] < 8 else str(data)
    if isinstance(data, bytes):
        return data.hex()
    if kind in ("BOOL", "STR"):
        return data
    if kind in ("SEQ", "TUPLEARRAY") and shape.parts[0].kind == "U8" and changed not in tree.parts:
        return bytes(part.data for part in tree.parts if isinstance(part.data, int)).hex()
    if kind in UNSUPPORTED:
        return "a" if kind == "CHAR" else 1
    parts = [json_of(part, changed, to) for part in tree.parts]
    if kind == "MAP":
        return [list(entry) for entry in zip(parts[::2], parts[1::2])]
    if kind == "STRUCT":
        return dict(zip(shape.names, parts))
    if kind == "ENUM" and isinstance(data, int):
        is_unit = shape.parts[data].kind == "UNIT" and changed not in tree.parts
        return shape.names[data] if is_unit else {shape.names[data]: parts[0]}
    if kind == "OPTION":
        return {"some": parts[0]} if parts else None
    return parts if kind in ("SEQ", "TUPLE", "TUPLEARRAY") else parts[0] if parts else None
