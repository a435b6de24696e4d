"""What the values of the default set have to show."""

from __future__ import annotations

from typing import Iterator, NamedTuple, Optional

from .shapes import Shape
from .tables import LENGTHS, STRINGS, WIDTHS, bounds
from .trees import Data

# More nodes than this, and no list of hundreds of them is made.
_MOST_NODES_OF_ITEM = 64


class Goal(NamedTuple):
    """What a value has to have at a shape: anything, this data, a number of parts or of bytes, or a variant. A long one
    isn't met beside another goal."""

    what: str
    number: int = 0
    data: Data = None
    is_long: bool = False


def _counts(*numbers: int) -> list[Goal]:
    return [Goal("count", number) for number in numbers]


def own_goals(shape: Shape) -> Iterator[Goal]:
    """What has to be shown at each shape."""
    kind, is_usable = shape.kind, bool(shape.open_parts())
    if kind == "BOOL":
        yield from (Goal("data", data=True), Goal("data", data=False))
    elif kind == "OPTION":
        yield from _counts(1, 0) if is_usable else _counts(0)
    elif kind == "SEQ":
        yield from _counts(2, 0, 1) if is_usable else _counts(0)
    elif kind == "MAP":
        yield from _counts(3, 0, 1, 2, 7) if is_usable else _counts(0)
    elif kind == "ENUM":
        yield from (Goal("variant", index) for index, part in enumerate(shape.parts) if part.is_possible)
    elif kind not in ("TYPENAME", "NEWTYPE"):
        yield Goal("any")


def classes(shape: Shape) -> list[str]:
    """The kinds of shapes of which it is one. What a kind has to show is shown at one shape of that kind."""
    kind, parts = shape.kind, shape.open_parts()
    if kind in WIDTHS or kind in ("STR", "BYTES"):
        return [kind]
    if kind not in ("SEQ", "MAP") or not parts or any(part.nodes > _MOST_NODES_OF_ITEM for part in parts):
        return []
    return ["SEQ of containers", kind] if kind == "SEQ" and parts[0].kind == "TYPENAME" else [kind]


def goals_of_class(name: str) -> list[Goal]:
    if name in WIDTHS:
        return [Goal("data", data=number) for number in bounds(name)]
    strings = [Goal("data", data=text) for text in STRINGS] if name == "STR" else []
    short = _counts(3, 0, 1) if name == "BYTES" else []
    return strings + short + [Goal("count", length, is_long=True) for length in LENGTHS[name]]


class Goals:
    """The goals that no value has met yet."""

    def __init__(self) -> None:
        self._own: dict[int, list[Goal]] = {}
        self._shared: dict[str, list[Goal]] = {}
        self._failed: set[tuple[int, Goal]] = set()

    def add(self, shape: Shape) -> None:
        """The goals of a shape, once for each shape and for each class."""
        if id(shape) not in self._own:
            self._own[id(shape)] = list(own_goals(shape))
            for name in classes(shape):
                if name not in self._shared:
                    self._shared[name] = goals_of_class(name)

    def has(self, shape: Shape) -> bool:
        """Whether a goal may be left there."""
        return bool(self._own.get(id(shape))) or any(self._shared.get(name) for name in classes(shape))

    def meet(self, shape: Shape, goal: Goal) -> None:
        """A value that is made for another goal meets this one, too."""
        goals = self._own.get(id(shape), [])
        if goal in goals:
            goals.remove(goal)

    def give_back(self, shape: Shape, goal: Goal) -> None:
        """No value of this shape meets the goal. Another shape of its class may."""
        for name in classes(shape):
            if goal in goals_of_class(name):
                self._failed.add((id(shape), goal))
                self._shared[name].append(goal)

    def take(self, shape: Shape, room: int, may_be_long: bool) -> Optional[Goal]:
        """A goal that a value of this shape can meet while no more than `room` containers may be opened."""
        for goals in [self._own.get(id(shape), []), *(self._shared.get(name, []) for name in classes(shape))]:
            for index, goal in enumerate(goals):
                is_open = (may_be_long or not goal.is_long) and (id(shape), goal) not in self._failed
                if is_open and _fits(shape, goal, room):
                    return goals.pop(index)
        return None


def _fits(shape: Shape, goal: Goal, room: int) -> bool:
    if goal.what == "variant":
        return shape.parts[goal.number].depth <= room
    return not goal.number or all(part.depth <= room for part in shape.parts)
