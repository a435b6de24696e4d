"""Integers, booleans, strings and byte strings."""

from __future__ import annotations

from typing import Optional

from .goals import Goal
from .random_numbers import RandomNumbers
from .tables import WIDTHS, bounds, range_of
from .trees import Data

SCALARS = {*WIDTHS, "BOOL", "STR", "BYTES"}

_LETTERS = ("a", "b", "c", "X", "Y", "Z", "_", "0", "9", " ", "é", "€", "😀")
_RANDOM_LENGTHS = (0, 1, 2, 3, 5, 8, 40, 130)


class Scalars:
    """Makes the leaves of one value after another."""

    def __init__(self, random: RandomNumbers) -> None:
        self._random = random
        self._used: set[tuple[str, Data]] = set()

    def start(self) -> None:
        """Another value begins."""
        self._used.clear()

    def meeting(self, kind: str, goal: Optional[Goal] = None) -> Data:
        """What a goal requires. Without one it has its top bit set, so that a lost sign is seen, and isn't another leaf
        of the same value, so that swapped fields are seen."""
        if goal and goal.what == "data":
            found = goal.data
        elif goal and goal.what == "count":
            found = self.of_length(kind, goal.number)
        else:
            found = next(
                (data for _ in range(9) if (kind, data := self._high(kind)) not in self._used), self._high(kind)
            )
        self._used.add((kind, found))
        return found

    def of_length(self, kind: str, length: int) -> Data:
        if kind == "BYTES":
            return bytes(self._random.below(256) if index else 255 for index in range(length))
        text, missing = "", length
        while missing:
            letter = self._random.choice(_LETTERS)
            letter = letter if len(letter.encode()) <= missing else "z"
            text += letter
            missing -= len(letter.encode())
        return text

    def any(self, kind: str) -> Data:
        """Random data, and often a bound."""
        if kind == "BOOL":
            return self._random.coin()
        if kind in ("STR", "BYTES"):
            is_listed = self._random.coin()
            return self.of_length(
                kind, self._random.choice(_RANDOM_LENGTHS) if is_listed else self._random.between(2, 4)
            )
        return self._random.choice(bounds(kind)) if self._random.coin() else self._random.between(*range_of(kind))

    def _high(self, kind: str) -> Data:
        if kind == "BOOL":
            return self._random.coin()
        if kind in ("STR", "BYTES"):
            return self.of_length(kind, self._random.between(2, 4))
        low, high = range_of(kind)
        return self._random.between(high - high // 4, high) if low == 0 else self._random.between(low, low // 2)
