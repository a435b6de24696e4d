"""Registries that are made from the modules of a Move chain."""

from __future__ import annotations

import os
from collections.abc import Iterable
from typing import NamedTuple, Union

from .errors import ModulesError
from .formats import Text, bytes_of_text
from .library import Call, Library, Question, library_of
from .values import name_of

__all__ = ["MadeRegistry", "registry_of_modules"]

# The first output. If the registry is longer, the call is made once more.
_ROOM = 4096


class MadeRegistry(NamedTuple):
    """A registry that was made from modules of a Move chain."""

    json: str
    """the registry's JSON, which `Registry` reads"""
    notes: str
    """what a reader of the registry has to know, for people: for instance that a type has another name there"""


def registry_of_modules(
    modules: Text, types: Iterable[str], library: Union[Library, str, os.PathLike[str], None] = None
) -> MadeRegistry:
    """The registry for types of a Move chain, as `bcs from-move` prints it.

    `modules` is the JSON that a node of Aptos or Sui returns for a module, or an array of such answers. Each text of
    `types` is a type, or a function, whose arguments have containers of their own: "0x1::coin::transfer<..>::arg0" and
    so on. Raises ModulesError if there is no such registry; `at` is then a JSON Pointer into the modules, or the type.

        >>> from bcs_proved import Registry, registry_of_modules
        >>> made = registry_of_modules("[]", ["0x1::option::Option<u8>"])
        >>> made.json
        '{"0x1::option::Option<u8>":{"NEWTYPESTRUCT":{"OPTION":"U8"}}}'
        >>> Registry(made.json).encode("0x1::option::Option<u8>", 7).hex()
        '0107'
    """
    text, lines = bytes_of_text(modules), _lines_of(types)
    called = library_of(library)
    answer = Question(called).ask(Call.REGISTRY_OF_MODULES, text, lines, room=_ROOM)
    try:
        called.require(answer, ModulesError)
    except ModulesError as fault:
        # (modules begin with a brace or a bracket)
        if fault.reason == "NotJson" and isinstance(modules, str) and text.strip()[:1] not in (b"", b"{", b"["):
            hint = "a str is read as JSON; to read a file, pass what its read() returns"
            raise ModulesError(fault.reason, fault.place, fault.at, f"{fault.message}; {hint}") from None
        raise
    # (the JSON has no line feed)
    json, _, notes = str(answer.output, "utf-8").partition("\n")
    return MadeRegistry(json, notes)


def _lines_of(types: Iterable[str]) -> bytes:
    """The types with a line feed behind each, as the library takes them. It would skip an empty one."""
    if isinstance(types, (str, bytes)):
        raise TypeError(f"types are a list of str, not {name_of(type(types))}")
    lines = []
    for text in types:
        if not isinstance(text, str):
            raise TypeError(f"a type is a str, not {name_of(type(text))}")
        line = str.__str__(text)
        if not line:
            raise ModulesError("BadType", None, line, '"" isn\'t a type')
        if "\n" in line:
            raise ModulesError("BadType", None, line, "a type has no line feed")
        lines.append(f"{line}\n")
    return bytes_of_text("".join(lines))
