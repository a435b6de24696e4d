"""Random numbers that are the same on every machine and in every version of Python."""

from __future__ import annotations

from typing import Sequence, TypeVar

Item = TypeVar("Item")


class RandomNumbers:
    """The generator splitmix64."""

    def __init__(self, seed: int) -> None:
        self._state = seed % (1 << 64)

    def _next(self) -> int:
        self._state = (self._state + 0x9E3779B97F4A7C15) % (1 << 64)
        mixed = self._state
        mixed = (mixed ^ mixed >> 30) * 0xBF58476D1CE4E5B9 % (1 << 64)
        mixed = (mixed ^ mixed >> 27) * 0x94D049BB133111EB % (1 << 64)
        return mixed ^ mixed >> 31

    def below(self, limit: int) -> int:
        """A number from 0, below the limit."""
        drawn = 0
        for _ in range(limit.bit_length() // 64 + 1):
            drawn = drawn << 64 | self._next()
        return drawn % limit

    def between(self, low: int, high: int) -> int:
        """A number from `low` to `high`, both included."""
        return low + self.below(high - low + 1)

    def choice(self, items: Sequence[Item]) -> Item:
        return items[self.below(len(items))]

    def coin(self) -> bool:
        return self.below(2) == 0
