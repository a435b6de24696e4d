"""Makes values: along a way to a goal, with other goals beside it where that costs little, and random ones."""

from __future__ import annotations

from typing import Optional

from .goals import Goal, Goals
from .maps import Maps
from .scalars import SCALARS, Scalars
from .random_numbers import RandomNumbers
from .shapes import Shape, Way
from .tables import MAX_CONTAINERS, UNSUPPORTED
from .trees import Tree

# A value with more nodes meets no more goals than the one that it is made for.
_MOST_NODES_OF_SHORT = 24
# Random values become small below this number of containers, and once they have this number of nodes.
_DEPTH_OF_RANDOM, _NODES_OF_RANDOM = 12, 150


def _goal_of_way(shape: Shape, index: int) -> Goal:
    """What a value shows at a shape that the way leads through, to this part."""
    if shape.kind == "ENUM":
        return Goal("variant", index)
    return Goal("count", 1) if shape.kind in ("OPTION", "SEQ", "MAP") else Goal("any")


class Values:
    """Makes values, and takes the goals that they meet."""

    def __init__(self, goals: Goals, random: RandomNumbers) -> None:
        self._goals, self._random = goals, random
        self._scalars = Scalars(random)
        self._maps = Maps(self.small, self.any, self._scalars)
        self._nodes = 0
        # what leads on from the shape where a value is being made: the next shape is at the end
        self._way: Way = []

    def with_goal(self, way: Way) -> Optional[Tree]:
        """A value of the first shape that meets a goal of the last one, and perhaps others. None if no goal is left."""
        room = MAX_CONTAINERS - sum(shape.kind == "TYPENAME" for shape in way[:-1])
        goal = self._goals.take(way[-1], room, may_be_long=True)
        return self._along(way, goal, 0) if goal else None

    def least(self, way: Way) -> Tree:
        """The least value of the way's first shape that has one of its last shape."""
        return self._along(way, None, _MOST_NODES_OF_SHORT)

    def random(self, root: Shape) -> Tree:
        self._start(0)
        return self.any(root, MAX_CONTAINERS)

    def _start(self, nodes: int) -> None:
        self._nodes = nodes
        self._scalars.start()

    def _along(self, way: Way, goal: Optional[Goal], nodes: int) -> Tree:
        self._start(nodes)
        self._way = way[:0:-1]
        return self._on_way(way[0], goal, MAX_CONTAINERS)

    def _on_way(self, shape: Shape, goal: Optional[Goal], room: int) -> Tree:
        """A value of a shape of the way, with the goal at its end."""
        if not self._way:
            return self._meeting(shape, goal, room)
        self._nodes += 1
        following = self._way.pop()
        room -= shape.kind == "TYPENAME"
        index = next(index for index, part in enumerate(shape.parts) if part is following)
        self._goals.meet(shape, _goal_of_way(shape, index))
        before = [] if shape.kind == "ENUM" else [self.small(part, room) for part in shape.parts[:index]]
        there = self._on_way(following, goal, room)
        if shape.kind == "ENUM":
            return Tree(shape, index, [there])
        rest = shape.parts * (shape.size - 1) if shape.kind == "TUPLEARRAY" else shape.parts[index + 1 :]
        return Tree(shape, None, [*before, there, *(self.small(part, room) for part in rest)])

    def small(self, shape: Shape, room: int) -> Tree:
        """The least value, or while the whole value is short, one that meets a goal."""
        is_short = self._nodes < _MOST_NODES_OF_SHORT
        return self._meeting(shape, self._goals.take(shape, room, may_be_long=False) if is_short else None, room)

    def _meeting(self, shape: Shape, goal: Optional[Goal], room: int) -> Tree:
        self._nodes += 1
        kind, count = shape.kind, goal.number if goal and goal.what == "count" else 0
        if kind in SCALARS:
            return Tree(shape, self._scalars.meeting(kind, goal))
        if kind == "MAP":
            tree = Tree(shape, None, self._maps.entries(shape, count, room))
            if goal and len(tree.parts) < 2 * count:
                self._goals.give_back(shape, goal)
            return tree
        if kind in ("OPTION", "SEQ"):
            return Tree(shape, None, [self.small(shape.parts[0], room) for _ in range(count)])
        if kind == "ENUM":
            choice = goal.number if goal else shape.choice
            return Tree(shape, choice, [self.small(shape.parts[choice], room)])
        parts = shape.parts * shape.size if kind == "TUPLEARRAY" else shape.parts
        room -= kind == "TYPENAME"
        return Tree(shape, None, [] if kind in UNSUPPORTED else [self.small(part, room) for part in parts])

    def any(self, shape: Shape, room: int) -> Tree:
        """A random value."""
        self._nodes += 1
        kind = shape.kind
        is_small = MAX_CONTAINERS - room > _DEPTH_OF_RANDOM or self._nodes > _NODES_OF_RANDOM
        if kind in SCALARS:
            return Tree(shape, self._scalars.any(kind))
        if kind in ("OPTION", "SEQ", "MAP"):
            is_usable = not is_small and shape.open_parts() and all(part.depth <= room for part in shape.parts)
            count = self._random.below(2 if kind == "OPTION" else 5) if is_usable else 0
            if kind == "MAP":
                return Tree(shape, None, self._maps.random_entries(shape, count, room))
            return Tree(shape, None, [self.any(shape.parts[0], room) for _ in range(count)])
        if kind == "ENUM":
            usable = [index for index, part in enumerate(shape.parts) if part.is_possible and part.depth <= room]
            choice = shape.choice if is_small else self._random.choice(usable)
            return Tree(shape, choice, [self.any(shape.parts[choice], room)])
        parts = shape.parts * shape.size if kind == "TUPLEARRAY" else shape.parts
        return Tree(shape, None, [self.any(part, room - (kind == "TYPENAME")) for part in parts])
