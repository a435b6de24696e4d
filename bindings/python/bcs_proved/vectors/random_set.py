"""Random values, and random changes of their bytes."""

from __future__ import annotations

from typing import Any, Iterator, Mapping, Sequence

from .byte_changes import changes
from .formats import Format
from .goals import Goals
from .random_numbers import RandomNumbers
from .shapes import Shapes
from .trees import Candidate
from .values import Values
from .verdicts import Line, Verdicts

# Shorter bytes occur twice by chance, so they are remembered.
_SHORT = 16


class RandomSet:
    """Makes lines without end, for one format after another."""

    def __init__(self, registry: Mapping[str, Any], formats: Sequence[Format], verdicts: Verdicts, seed: int) -> None:
        roots = Shapes(registry).settle(format.json for format in formats)
        self._roots = [(format.argument, root) for format, root in zip(formats, roots) if root.is_possible]
        self._random = RandomNumbers(seed)
        self._values = Values(Goals(), self._random)
        self._verdicts = verdicts
        self._kept: set[tuple[str, bytes]] = set()

    def lines(self, count: int) -> Iterator[Line]:
        """The lines of this number of values: for each the value, two changes by the rules, and one of a single bit."""
        for number in range(count if self._roots else 0):
            format, root = self._roots[number % len(self._roots)]
            candidate = Candidate(self._values.random(root))
            for data in (candidate.data, *self._changed(format, candidate)):
                line = self._verdicts.of_bytes(format, data) if self._is_new(format, data) else None
                if line:
                    yield line

    def _changed(self, format: str, candidate: Candidate) -> Iterator[bytes]:
        by_rules = list(changes(format, candidate))
        for _ in range(2):
            yield self._random.choice(by_rules).apply(candidate.data)
        if candidate.data:
            data = bytearray(candidate.data)
            data[self._random.below(len(data))] ^= 1 << self._random.below(8)
            yield bytes(data)

    def _is_new(self, format: str, data: bytes) -> bool:
        is_new = (format, data) not in self._kept
        if len(data) < _SHORT:
            self._kept.add((format, data))
        return is_new
