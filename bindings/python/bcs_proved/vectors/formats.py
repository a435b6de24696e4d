"""The formats that lines are made for."""

from __future__ import annotations

import json
from typing import Any, Mapping, NamedTuple, Sequence


class Format(NamedTuple):
    """A format as an argument, and as JSON."""

    argument: str
    json: Any


def parsed(argument: str) -> Format:
    """A format of an argument that the library accepts: JSON, or a container's name."""
    return Format(argument, json.loads(argument) if argument[:1] in ("{", '"') else {"TYPENAME": argument})


def all_containers(registry: Mapping[str, Any]) -> list[Format]:
    """A format for each container, after those that it needs."""
    return [named(name) for name in _needed_first(registry)]


def named(name: str) -> Format:
    json_of_name = {"TYPENAME": name}
    return Format(json.dumps(json_of_name) if name[:1] in ("{", '"') else name, json_of_name)


def _needed_first(registry: Mapping[str, Any]) -> list[str]:
    order: dict[str, None] = {}
    seen: set[str] = set()
    for start in sorted(registry):
        todo = [(start, iter(_names(registry[start])))] if start not in seen else []
        seen.add(start)
        while todo:
            name, needed = todo[-1]
            following = next((other for other in needed if other not in seen), None)
            if following is None:
                order[name] = None
                todo.pop()
            else:
                seen.add(following)
                todo.append((following, iter(_names(registry[following]))))
    return list(order)


def _names(thing: Any) -> Sequence[str]:
    """The containers that a container or a format names, sorted."""
    found: set[str] = set()
    todo = [thing]
    while todo:
        part = todo.pop()
        if isinstance(part, list):
            todo += part
        elif isinstance(part, dict) and isinstance(part.get("TYPENAME"), str):
            found.add(part["TYPENAME"])
        elif isinstance(part, dict):
            todo += part.values()
    return sorted(found)
