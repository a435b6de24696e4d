"""The default set: as few values as show everything, and changes of their bytes and of their JSON."""

from __future__ import annotations

from itertools import chain
from typing import Any, Iterator, Mapping, NamedTuple, Sequence

from .byte_changes import changes
from .deep import deep_ways
from .formats import Format
from .goals import Goals
from .random_numbers import RandomNumbers
from .shapes import Shapes, Ways
from .tables import UNSUPPORTED
from .text_changes import map_changes, text_changes, written
from .trees import Candidate, Tree, json_of
from .values import Values
from .verdicts import Line, Verdicts


class Value(NamedTuple):
    """A value with its bytes."""

    format: str
    tree: Tree
    candidate: Candidate


class DefaultSet:
    """Makes the lines of all formats."""

    def __init__(self, registry: Mapping[str, Any], formats: Sequence[Format], verdicts: Verdicts, seed: int) -> None:
        self._registry, self._formats, self._verdicts, self._seed = registry, formats, verdicts, seed
        self._roots = Shapes(registry).settle(format.json for format in formats)
        self._arguments = {id(root): format.argument for root, format in zip(self._roots, formats)}
        self._lines: dict[str, list[Line]] = {format.argument: [] for format in formats}
        self._kept: set[tuple[str, object]] = set()
        # those that have JSON
        self._values: list[Value] = []

    def lines(self, with_texts: bool) -> Iterator[Line]:
        """The lines of each format: values first, by their length, then bytes that are refused, then JSON."""
        self._add_values()
        for lines in self._lines.values():
            lines.sort(key=lambda line: len(line["bytes"]))
        self._values.sort(key=lambda value: len(value.candidate.data))
        self._add_changes()
        self._add_unsupported(with_texts)
        self._add_texts(with_texts)
        for lines in self._lines.values():
            yield from lines

    def _is_new(self, format: str, content: object) -> bool:
        is_new = (format, content) not in self._kept
        self._kept.add((format, content))
        return is_new

    def _add_values(self) -> None:
        goals = Goals()
        values = Values(goals, RandomNumbers(self._seed))
        all_ways = Ways.of_all(self._roots)
        for ways in all_ways:
            for shape in ways.shapes:
                goals.add(shape)
        for ways in all_ways:
            # the longest ways first, since they meet goals of others
            for shape in reversed(ways.shapes):
                while goals.has(shape) and (tree := values.with_goal(ways.to(shape))):
                    self._add_value(tree)
        for way in deep_ways(self._roots):
            self._add_value(values.least(way))
        for root in self._roots:
            if not root.is_possible:
                self._add_refused(self._arguments[id(root)])

    def _add_value(self, tree: Tree) -> None:
        format, candidate = self._arguments[id(tree.shape)], Candidate(tree)
        line = self._verdicts.of_bytes(format, candidate.data) if self._is_new(format, candidate.data) else None
        if line:
            self._lines[format].append(line)
        if line and "json" in line:
            self._values.append(Value(format, tree, candidate))

    def _add_refused(self, format: str) -> None:
        """Two lines for a format that has no value."""
        for data in (b"", b"\0"):
            line = self._verdicts.of_bytes(format, data)
            if line and self._is_new(format, data):
                self._lines[format].append(line)

    def _add_changes(self) -> None:
        """Each change once, of the shortest value that it makes invalid for the reason that is meant."""
        done: set[object] = set()
        for format, _, candidate in self._values:
            for change in changes(format, candidate):
                if change.key in done:
                    continue
                data = change.apply(candidate.data)
                line = None if (format, data) in self._kept else self._verdicts.of_bytes(format, data)
                if line and line.get("refused") == change.reason:
                    done.add(change.key)
                    self._kept.add((format, data))
                    self._lines[format].append(line)

    def _add_unsupported(self, with_texts: bool) -> None:
        """Bytes and JSON with an F32, an F64 or a CHAR, at each place where there could be one."""
        shapes = Shapes(self._registry, unsupported=True)
        roots = shapes.settle(format.json for format in self._formats)
        if not shapes.has_unsupported():
            return
        goals = Goals()
        values = Values(goals, RandomNumbers(self._seed))
        for ways, format in zip(Ways.of_all(roots), self._formats):
            for shape in ways.shapes:
                if shape.kind in UNSUPPORTED:
                    goals.add(shape)
                    tree = values.with_goal(ways.to(shape))
                    if tree:
                        self._add_unsupported_value(format.argument, tree, with_texts)

    def _add_unsupported_value(self, format: str, tree: Tree, with_texts: bool) -> None:
        data, text = Candidate(tree).data, written(json_of(tree))
        line = self._verdicts.of_bytes(format, data) if self._is_new(format, data) else None
        if line and line.get("refused") == "Unsupported":
            self._lines[format].append(line)
        if with_texts and self._is_new(format, text):
            self._lines[format].append(self._verdicts.of_text(format, text))

    def _add_texts(self, with_texts: bool) -> None:
        """Each other JSON document once, of the shortest value that shows it."""
        done: set[object] = set()
        for format, tree, _ in self._values:
            for change in chain(map_changes(tree), text_changes(tree) if with_texts else []):
                if change.key in done:
                    continue
                text = change.text(tree)
                line = None if (format, text) in self._kept else self._verdicts.of_text(format, text)
                if line and line.get("refused") == change.reason:
                    done.add(change.key)
                    self._kept.add((format, text))
                    self._lines[format].append(line)
