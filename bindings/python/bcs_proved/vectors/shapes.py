"""A registry as a graph of shapes, each with the least value that it has."""

from __future__ import annotations

import dataclasses
import heapq
from typing import Any, Iterable, Mapping, Optional

from .tables import MAX_CONTAINERS, UNSUPPORTED, WIDTHS

# No line has a value with more nodes, such as of a TUPLEARRAY with a huge SIZE.
MOST_NODES = 100_000

_CONTAINERS = {"UNITSTRUCT": "UNIT", "NEWTYPESTRUCT": "NEWTYPE", "TUPLESTRUCT": "TUPLE"}


@dataclasses.dataclass(eq=False)
class Shape:
    """A format at one place of the registry, or what a container or a variant holds: a UNIT, a NEWTYPE, a TUPLE, a
    STRUCT or an ENUM. The part of a TYPENAME is what its container holds, which all its TYPENAMEs share."""

    kind: str
    parts: list[Shape] = dataclasses.field(default_factory=list)
    # of fields or variants, and of a TYPENAME the container's
    names: list[str] = dataclasses.field(default_factory=list)
    # of variants
    numbers: list[int] = dataclasses.field(default_factory=list)
    # of a TUPLEARRAY
    size: int = 0
    # whether it has a value that can be written down; and of the least one how many containers it opens, its nodes, the
    # variant, and whether it has no bytes
    is_possible: bool = False
    depth: int = 0
    nodes: int = 0
    choice: int = 0
    is_empty: bool = False

    def open_parts(self) -> list[Shape]:
        """The parts that values of this shape can have."""
        if self.kind == "MAP":
            return self.parts if all(part.is_possible for part in self.parts) else []
        return [] if self.kind == "TUPLEARRAY" and not self.size else [part for part in self.parts if part.is_possible]

    @property
    def format(self) -> object:
        """Equal for two places with the same format."""
        if self.kind == "TYPENAME":
            return (self.kind, *self.names)
        return (self.kind, self.size, *(part.format for part in self.parts))


def only(thing: Mapping[str, Any]) -> tuple[str, Any]:
    (member,) = thing.items()
    return member


class Shapes:
    """The shapes of a registry. With `unsupported`, F32, F64 and CHAR count as if they had values."""

    def __init__(self, registry: Mapping[str, Any], unsupported: bool = False) -> None:
        self._all: list[Shape] = []
        self._unsupported = unsupported
        self.containers = {name: self._add(Shape("")) for name in registry}
        for name, container in registry.items():
            self._hold(self.containers[name], container)

    def has_unsupported(self) -> bool:
        return any(shape.kind in UNSUPPORTED for shape in self._all)

    def settle(self, formats: Iterable[Any]) -> list[Shape]:
        """The shapes of these formats, once all shapes have their least values."""
        roots = [self._format(format) for format in formats]
        _Settling(self._all, self._unsupported).run()
        return roots

    def _add(self, shape: Shape) -> Shape:
        self._all.append(shape)
        return shape

    def _format(self, format: Any) -> Shape:
        if isinstance(format, str):
            return self._add(Shape(format))
        kind, inner = only(format)
        if kind == "TYPENAME":
            return self._add(Shape(kind, [self.containers[inner]], [inner]))
        if kind == "TUPLEARRAY":
            return self._add(Shape(kind, [self._format(inner["CONTENT"])], size=inner["SIZE"]))
        parts = inner if kind == "TUPLE" else [inner["KEY"], inner["VALUE"]] if kind == "MAP" else [inner]
        return self._add(Shape(kind, [self._format(part) for part in parts]))

    def _hold(self, shape: Shape, content: Any) -> Shape:
        """Makes this the shape of what a container or a variant holds."""
        kind, inner = (content, []) if isinstance(content, str) else only(content)
        shape.kind = _CONTAINERS.get(kind, kind)
        if shape.kind == "ENUM":
            shape.numbers = sorted(map(int, inner))
            variants = [only(inner[str(number)]) for number in shape.numbers]
            shape.names = [name for name, _ in variants]
            shape.parts = [self._hold(self._add(Shape("")), payload) for _, payload in variants]
        elif shape.kind == "STRUCT":
            shape.names = [only(field)[0] for field in inner]
            shape.parts = [self._format(only(field)[1]) for field in inner]
        elif shape.kind == "TUPLE":
            shape.parts = [self._format(format) for format in inner]
        elif shape.kind == "NEWTYPE":
            shape.parts = [self._format(inner)]
        return shape


class _Settling:
    """Gives every shape its least value, those with the fewest open containers first (Knuth's generalisation of
    Dijkstra's algorithm). Shapes that it never reaches have no value."""

    def __init__(self, shapes: list[Shape], unsupported: bool) -> None:
        self._shapes, self._unsupported = shapes, unsupported
        self._heap: list[tuple[int, int, int, int]] = []
        # the shapes that a shape is a part of, and which part
        self._users: list[list[tuple[int, int]]] = [[] for _ in shapes]
        self._numbers = {id(shape): number for number, shape in enumerate(shapes)}
        # how many parts have no value so far
        self._missing = [len(shape.parts) for shape in shapes]

    def run(self) -> None:
        for number, shape in enumerate(self._shapes):
            for index, part in enumerate(shape.parts):
                self._users[self._numbers[id(part)]].append((number, index))
            self._offer_leaf(number, shape)
        while self._heap:
            depth, nodes, number, choice = heapq.heappop(self._heap)
            shape = self._shapes[number]
            if not shape.is_possible and depth <= MAX_CONTAINERS and nodes <= MOST_NODES:
                shape.is_possible, shape.depth, shape.nodes, shape.choice = True, depth, nodes, choice
                shape.is_empty = self._has_no_bytes(shape)
                for user, index in self._users[number]:
                    self._offer(user, index, shape)

    def _offer_leaf(self, number: int, shape: Shape) -> None:
        """Shapes whose least value has no parts."""
        if shape.kind in UNSUPPORTED and not self._unsupported or shape.kind == "ENUM":
            return
        is_list = shape.kind in ("OPTION", "SEQ", "MAP")
        if is_list or not shape.parts or shape.kind == "TUPLEARRAY" and not shape.size:
            heapq.heappush(self._heap, (0, 1, number, 0))

    def _offer(self, number: int, index: int, part: Shape) -> None:
        """A part of a shape has got its least value."""
        shape = self._shapes[number]
        self._missing[number] -= 1
        if shape.kind == "ENUM":
            heapq.heappush(self._heap, (part.depth, 1 + part.nodes, number, index))
        elif not self._missing[number] and not shape.is_possible:
            copies = shape.size if shape.kind == "TUPLEARRAY" else 1
            nodes = 1 + copies * sum(one.nodes for one in shape.parts)
            depth = max(one.depth for one in shape.parts) + (shape.kind == "TYPENAME")
            heapq.heappush(self._heap, (depth, nodes, number, 0))

    @staticmethod
    def _has_no_bytes(shape: Shape) -> bool:
        if shape.kind in WIDTHS or shape.kind in UNSUPPORTED:
            return False
        if shape.kind in ("BOOL", "STR", "BYTES", "OPTION", "SEQ", "MAP", "ENUM"):
            return False
        return shape.kind == "TUPLEARRAY" and not shape.size or all(part.is_empty for part in shape.parts)


# A way to a shape: the shapes from the first one on, each a part of the one before it.
Way = list[Shape]


class Ways:
    """The shapes that values of a root can have, each with the shortest way to it."""

    def __init__(self, root: Shape, others: set[int]) -> None:
        """Without the shapes in `others`, to which those that are found are added."""
        self._came_from: dict[int, Optional[Shape]] = {id(root): None}
        self.shapes = [root] if root.is_possible else []
        depths = {id(root): 0}
        for shape in self.shapes:
            depth = depths[id(shape)] + (shape.kind == "TYPENAME")
            for part in shape.open_parts() if depth <= MAX_CONTAINERS else []:
                if id(part) not in self._came_from and id(part) not in others:
                    others.add(id(part))
                    self._came_from[id(part)], depths[id(part)] = shape, depth
                    self.shapes.append(part)

    def to(self, shape: Shape) -> Way:
        way, at = [], self._came_from[id(shape)]
        while at is not None:
            way.append(at)
            at = self._came_from[id(at)]
        return [*way[::-1], shape]

    @classmethod
    def of_all(cls, roots: list[Shape]) -> list[Ways]:
        """Each shape is found from one root only, and what a container holds from that container if it is a root."""
        others = {id(root.parts[0]) for root in roots if root.kind == "TYPENAME"}
        found = []
        for root in roots:
            own = {id(root.parts[0])} if root.kind == "TYPENAME" else set()
            others -= own
            found.append(cls(root, others))
            others |= own
        return found
