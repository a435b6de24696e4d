"""Ways through exactly as many containers as may nest, and through one more, for each kind of container."""

from __future__ import annotations

from typing import Callable, Iterator, NamedTuple, Optional

from .shapes import Shape, Way
from .tables import MAX_CONTAINERS

# Deep enough for recursion to be seen, and shallow enough for JSON.
_MODERATE = 20


class _Loop(NamedTuple):
    """A way from what a container holds back to it, and a way from there to a container that opens no other one."""

    around: Way
    tail: Way


def deep_ways(roots: list[Shape]) -> Iterator[Way]:
    """For each kind of container that something recursive can hold, ways that end with one: through 20 containers,
    through 500, and through 501. If no root leads through exactly so many, fewer, and of the last a few more."""
    loops = _loops(roots)
    for loop in loops:
        starts = list(_starts(loop, roots))
        for total in (_MODERATE, MAX_CONTAINERS):
            yield max((_through(loop, start, total) for start in starts), key=_opened)
        least_more = (
            _through(loop, start, total)
            for total in range(MAX_CONTAINERS + 1, MAX_CONTAINERS + 1 + _opened(loop.around))
            for start in starts
        )
        yield next(way for way in least_more if _opened(way) > MAX_CONTAINERS)


def _opened(way: Way) -> int:
    return sum(shape.kind == "TYPENAME" for shape in way)


def _through(loop: _Loop, start: Way, total: int) -> Way:
    """A way that opens as many containers as possible, up to a total."""
    rounds = (total - _opened(start) - _opened(loop.tail)) // _opened(loop.around)
    return [*start, *loop.around * max(rounds, 0), *loop.tail]


def _starts(loop: _Loop, roots: list[Shape]) -> Iterator[Way]:
    """Ways from roots to the loop: from containers on the loop, or from the first root that leads there."""
    held_by = {id(root.parts[0]): root for root in roots if root.kind == "TYPENAME"}
    on_loop = [index for index, shape in enumerate(loop.around) if id(shape) in held_by]
    for index in on_loop:
        yield [held_by[id(loop.around[index])], *(loop.around[index:] if index else [])]
    if not on_loop:
        found = (_way(root, lambda shape: shape is loop.around[0]) for root in roots)
        yield from [way for way in found if way][:1]


def _way(start: Shape, is_end: Callable[[Shape], bool]) -> Way:
    """The shortest way from a shape to one that has an end as a part, or no way."""
    came_from: dict[int, Optional[Shape]] = {id(start): None}
    todo = [start]
    for shape in todo:
        for part in shape.open_parts():
            if is_end(part):
                way, at = [], came_from[id(shape)]
                while at is not None:
                    way.append(at)
                    at = came_from[id(at)]
                return [*way[::-1], shape]
            if id(part) not in came_from:
                came_from[id(part)] = shape
                todo.append(part)
    return []


def _loops(roots: list[Shape]) -> list[_Loop]:
    """For each kind of container a loop, as near as possible to a container of that kind that opens no other one."""
    users: dict[int, list[Shape]] = {}
    ends: dict[str, list[Shape]] = {}
    todo, seen = [root for root in roots if root.is_possible], {id(root) for root in roots}
    for shape in todo:
        if shape.kind == "TYPENAME" and shape.depth == 1:
            ends.setdefault(shape.parts[0].kind, []).append(shape)
        for part in shape.open_parts():
            users.setdefault(id(part), []).append(shape)
            if id(part) not in seen:
                seen.add(id(part))
                todo.append(part)
    cyclic = _cyclic(roots)
    found = (_loop(ends[kind], users, cyclic) for kind in sorted(ends))
    return [loop for loop in found if loop]


def _loop(ends: list[Shape], users: dict[int, list[Shape]], cyclic: set[int]) -> Optional[_Loop]:
    """The nearest one whose end has no other container beside it, or else the nearest one."""
    are_ends, todo = {id(end) for end in ends}, list(ends)
    seen = set(are_ends)
    nearest: Optional[_Loop] = None
    for shape in todo:
        if shape.kind == "TYPENAME" and id(shape.parts[0]) in cyclic:
            held = shape.parts[0]
            tail = _way(held, lambda part: id(part) in are_ends)
            if tail:
                end = next(part for part in tail[-1].open_parts() if id(part) in are_ends)
                loop = _Loop(_way(held, lambda part: part is held), [*tail, end])
                nearest = nearest or loop
                if _is_alone(loop.tail):
                    return loop
        for user in users.get(id(shape), []):
            if id(user) not in seen:
                seen.add(id(user))
                todo.append(user)
    return nearest


def _is_alone(tail: Way) -> bool:
    """Whether nothing beside the end of a way opens a container."""
    pairs = [(shape, following) for shape, following in zip(tail, tail[1:]) if shape.kind not in ("ENUM", "TYPENAME")]
    return not any(part.depth for shape, following in pairs for part in shape.parts if part is not following)


def _cyclic(roots: list[Shape]) -> set[int]:
    """What can be within itself: the shapes in strongly connected components of more than one (Tarjan's algorithm)."""
    order: dict[int, int] = {}
    lowest: dict[int, int] = {}
    unfinished: dict[int, None] = {}
    cyclic: set[int] = set()
    calls: list[tuple[Shape, Iterator[Shape]]] = []

    def enter(shape: Shape) -> None:
        order[id(shape)] = lowest[id(shape)] = len(order)
        unfinished[id(shape)] = None
        calls.append((shape, iter(shape.open_parts())))

    def leave(shape: Shape) -> None:
        if calls:
            user = id(calls[-1][0])
            lowest[user] = min(lowest[user], lowest[id(shape)])
        if lowest[id(shape)] == order[id(shape)]:
            component = [unfinished.popitem()[0]]
            while component[-1] != id(shape):
                component.append(unfinished.popitem()[0])
            cyclic.update(component if len(component) > 1 else [])

    for root in roots:
        if id(root) not in order:
            enter(root)
        while calls:
            shape, parts = calls[-1]
            part = next(parts, None)
            if part is None:
                calls.pop()
                leave(shape)
            elif id(part) not in order:
                enter(part)
            elif id(part) in unfinished:
                lowest[id(shape)] = min(lowest[id(shape)], order[id(part)])
    return cyclic
