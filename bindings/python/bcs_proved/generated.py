"""Functions that are made for a type: the same as generic ones, but without a call for each number.

Their source has numbers alone of the registry, never a name or any other text of it. Such are among their globals.
"""

from __future__ import annotations

from collections.abc import Iterable
from typing import Any, NamedTuple

__all__ = ["MOST_PARTS", "Code", "function_of"]

# Types with more parts stay generic, since compiling them would take long.
MOST_PARTS = 64


class Code(NamedTuple):
    """What converts a part: lines that may come first, and an expression of the part's variable."""

    lines: list[str]
    expression: str


def function_of(parameters: str, lines: Iterable[str], known: dict[str, Any]) -> Any:
    """The function with these parameters and lines. What else it refers to is in `known`."""
    source = "".join(f"    {line}\n" for line in lines)
    names: dict[str, Any] = {"__builtins__": {}, **known}
    # pylint: disable-next=exec-used
    exec(compile(f"def made({parameters}):\n{source}", "<bcs_proved>", "exec"), names)
    return names["made"]
