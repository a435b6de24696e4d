"""Test vectors of a registry: values, bytes and JSON with the verdicts of the proved library, one on each line.

    python3 -m bcs_proved.vectors REG [FORMAT ..] [--count N] [--seed S] [--texts]

docs/VECTORS.md of the repository describes the lines, and how a test uses them.
"""

from __future__ import annotations

import json
from itertools import chain
from typing import Iterator, Sequence

from bcs_proved import Registry, Text

from .default_set import DefaultSet
from .formats import all_containers, parsed
from .random_set import RandomSet
from .verdicts import Line, Verdicts

__all__ = ["lines"]


def lines(
    text: Text, formats: Sequence[str] = (), count: int = 0, seed: int = 1, with_texts: bool = False
) -> Iterator[Line]:
    """The lines of a registry's JSON: the default set of these formats, or of all containers, and then those of `count`
    random values. Raises RegistryError or FormatError before the first line.

    Values nest up to 500 containers deep, so it needs a recursion limit and a stack for that, as the command has them.
    """
    registry = Registry(text)
    for format in formats:
        registry.check(format)
    containers = json.loads(text)
    asked = [parsed(format) for format in dict.fromkeys(formats)] or all_containers(containers)
    verdicts = Verdicts(registry)
    default = DefaultSet(containers, asked, verdicts, seed).lines(with_texts)
    return chain(default, RandomSet(containers, asked, verdicts, seed).lines(count)) if count else default
