"""The entries of maps, with keys whose bytes are in another order than the keys themselves."""

from __future__ import annotations

from itertools import chain
from typing import Callable, Iterator

from .scalars import Scalars
from .shapes import Shape
from .tables import BEHIND_WORDS, WIDTHS, range_of
from .trees import Candidate, Data, Tree

# Makes a value that opens at most the given number of containers.
Make = Callable[[Shape, int], Tree]

# Their little-endian bytes have another order: 256 is 0001, and comes before 1, which is 0100.
_INTEGERS = (1, 256, 255, 2, 65536, 1 << 64, 3, -1, -256)
_STRINGS: list[Data] = ["b", "aa", "", "Z", "é", "a", "B"]
_BYTES: list[Data] = [b"b", b"aa", b"", b"\xff", b"\0\0", b"a"]
_MOST_TRIES = 60


def _base(shape: Shape) -> Shape:
    """What a key is once the containers around it that add no bytes are left out."""
    seen: set[int] = set()
    while shape.kind in ("TYPENAME", "NEWTYPE") and id(shape) not in seen:
        seen.add(id(shape))
        shape = shape.parts[0]
    return shape


def _wrapped(shape: Shape, base: Shape, data: Data) -> Tree:
    return Tree(base, data) if shape is base else Tree(shape, None, [_wrapped(shape.parts[0], base, data)])


class Maps:
    """Makes entries: keys and values in turn, by rising bytes of the keys."""

    def __init__(self, small: Make, any: Make, scalars: Scalars) -> None:
        self._small, self._any, self._scalars = small, any, scalars

    def entries(self, shape: Shape, count: int, room: int) -> list[Tree]:
        """At most this number of entries: fewer if the key's format has fewer values."""
        return self._entries(shape, count, room, self._small, self._chosen_keys(shape.parts[0], count, room))

    def random_entries(self, shape: Shape, count: int, room: int) -> list[Tree]:
        return self._entries(shape, count, room, self._any, self._keys(shape.parts[0], room))

    @staticmethod
    def _entries(shape: Shape, count: int, room: int, make: Make, keys: Iterator[Tree]) -> list[Tree]:
        entries: dict[bytes, list[Tree]] = {}
        tries = 0
        while len(entries) < count and tries < 4 * count + _MOST_TRIES:
            key = next(keys)
            data = Candidate(key).data
            if data not in entries:
                entries[data] = [key, make(shape.parts[1], room)]
            tries += 1
        return [part for data in sorted(entries) for part in entries[data]]

    def _keys(self, shape: Shape, room: int, small: int = 0) -> Iterator[Tree]:
        """Some small keys, and then random ones without end: small ones are all high, and there may be few of them."""
        for _ in range(small):
            yield self._small(shape, room)
        while True:
            yield self._any(shape, room)

    def _chosen_keys(self, shape: Shape, count: int, room: int) -> Iterator[Tree]:
        """Two, three or seven keys have orders that go wrong: by length, by value, or by signed bytes."""
        base = _base(shape)
        if count == 2 and base.kind in ("STR", "BYTES"):
            # the length of 256 bytes, 8002, is below that of 129, 8101
            special: list[Data] = [self._scalars.of_length(base.kind, length) for length in (129, 256)]
        elif base.kind in WIDTHS:
            low, high = range_of(base.kind)
            special = [number for number in _INTEGERS if low <= number <= high]
        else:
            special = {"STR": _STRINGS, "BYTES": _BYTES}.get(base.kind, [])
        wrapped = [_wrapped(shape, base, data) for data in special] if count > 1 else []
        if count in (2, 7) and not wrapped:
            wrapped = self._longer_but_lower(shape, room)
        elif count == 3 and not wrapped:
            wrapped = self._long_key(shape, room)
        return chain(wrapped, self._keys(shape, room, small=8))

    def _pool(self, shape: Shape, room: int) -> dict[bytes, Tree]:
        return {Candidate(key).data: key for key in (self._any(shape, room) for _ in range(_MOST_TRIES))}

    def _longer_but_lower(self, shape: Shape, room: int) -> list[Tree]:
        """Two keys of which the longer one has the lower bytes, if there are such keys."""
        pool = self._pool(shape, room)
        pairs = [(len(one) + len(two), one, two) for one in pool for two in pool if len(one) > len(two) and one < two]
        return [pool[data] for data in min(pairs)[1:]] if pairs else []

    def _long_key(self, shape: Shape, room: int) -> list[Tree]:
        """A key that is longer than what a decoder may compare at once, if there is one."""
        pool = self._pool(shape, room)
        long = [data for data in pool if len(data) > BEHIND_WORDS[-1] + 1]
        return [pool[min(long, key=len)]] if long else []
