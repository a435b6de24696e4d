"""What `explain` shows besides the pieces of a value: those inside byte strings, and Move's own types."""

from __future__ import annotations

from collections.abc import Iterable, Mapping
from typing import NamedTuple, Optional

from .errors import PathError
from .formats import Format, bytes_of_text, json_of
from .values import name_of

__all__ = ["EXPECTED_NAME", "MISSING", "View", "lines_of", "views_of"]

EXPECTED_NAME = "expected a name such as .payload.args[1]"
# What is wrong with the container of a view that the registry doesn't have.
_NO_CONTAINER = "the registry has no newtype of 32 bytes with this name"
MISSING = {
    "inside": "the registry has no such format",
    "calls": "the registry has no arguments of this function",
    **dict.fromkeys(["addresses", "u256s", "i256s"], _NO_CONTAINER),
}
# The words of the library.
_WORDS = {"calls": "call", "addresses": "address", "u256s": "u256", "i256s": "i256"}


class View(NamedTuple):
    """A line for the library. `word` is the argument that has it, and `format` the JSON of a format, if it has one."""

    word: str
    name: str
    line: bytes
    format: Optional[bytes] = None


def views_of(
    inside: Optional[Mapping[str, Format]] = None,
    calls: Optional[Mapping[str, str]] = None,
    **containers: Iterable[str],
) -> list[View]:
    """The views that a caller requests. Raises PathError for a name that no line can have."""
    views = []
    for name, format in _members("inside", inside):
        text = json_of(format)
        views.append(_view("inside", _checked(name), b"=" + text, text))
    for name, function in _members("calls", calls):
        if not isinstance(function, str):
            raise TypeError(f"calls: a function is a str, not {name_of(type(function))}")
        views.append(_view("calls", _checked(name), b"=" + bytes_of_text(function)))
    for kind, names in containers.items():
        if isinstance(names, (str, bytes)):
            raise TypeError(f"{kind} are a list of str, not {name_of(type(names))}")
        views += [_view(kind, name) for name in names]
    return views


def lines_of(views: Iterable[View]) -> bytes:
    return b"\n".join(view.line for view in views)


def _members(word: str, members: Optional[Mapping[str, Format]]) -> list[tuple[str, Format]]:
    if members is None:
        return []
    if not isinstance(members, Mapping):
        raise TypeError(f"{word} is a dict by the names of byte strings, not {name_of(type(members))}")
    return [(name, members[name]) for name in [*members]]


def _view(word: str, name: str, rest: bytes = b"", format: Optional[bytes] = None) -> View:
    if not isinstance(name, str):
        raise TypeError(f"{word}: a name is a str, not {name_of(type(name))}")
    text = bytes_of_text(name) + rest
    if b"\n" in text:
        raise PathError("BadPath", None, name, f"{word}: a line feed, which no view may have")
    return View(word, name, f"{_WORDS.get(word, word)} ".encode() + text, format)


def _checked(name: str) -> str:
    """A name that ends at the `=` behind it, since it has none outside quotes."""
    is_quoted, is_escaped = False, False
    for sign in name if isinstance(name, str) else "":
        if is_escaped:
            is_escaped = False
        elif sign == "\\" and is_quoted:
            is_escaped = True
        elif sign == '"':
            is_quoted = not is_quoted
        elif sign == "=" and not is_quoted:
            is_quoted = True
            break
    if is_quoted or name == "":
        raise PathError("BadPath", None, name, EXPECTED_NAME)
    return name
