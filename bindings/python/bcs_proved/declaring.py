"""What the commands that declare a registry's types in other languages share: arguments, identifiers, containers."""

from __future__ import annotations

import json
import os
import pathlib
import re
import sys
from collections.abc import Callable, Iterable, Mapping
from typing import Any

from bcs_proved import Registry, RegistryError

__all__ = ["Containers", "Identifiers", "camel", "declare", "escaped", "only"]

# Move's own types, by what they are and by the name that they have without an option.
OWN_FORMS = ("address", "u256", "i256")
_OF_32_BYTES = {"NEWTYPESTRUCT": {"TUPLEARRAY": {"CONTENT": "U8", "SIZE": 32}}}
_LONGEST_IDENTIFIER = 60


def only(thing: Mapping[str, Any]) -> tuple[str, Any]:
    """The only member of an object."""
    (member,) = thing.items()
    return member


def camel(name: str) -> str:
    """A name as an identifier that begins with a capital: to_address is ToAddress."""
    words = re.findall(r"[A-Za-z0-9]+", name)
    joined = "".join(word[0].upper() + word[1:] for word in words)[:_LONGEST_IDENTIFIER]
    return joined if joined[:1].isalpha() else f"T{joined}"


def escaped(text: str, escape: Callable[[int], str]) -> str:
    """A string literal. What isn't printable ASCII is escaped."""
    plain = {'"': '\\"', "\\": "\\\\"}
    return '"' + "".join(plain.get(c, c if " " <= c <= "~" else escape(ord(c))) for c in text) + '"'


class Identifiers:
    """Returns each identifier once."""

    def __init__(self, taken: Iterable[str] = ()) -> None:
        self._taken = set(taken)
        self._numbers: dict[str, int] = {}

    def of(self, wanted: str) -> str:
        """This identifier, with a number behind it if it is taken."""
        found = wanted
        while found in self._taken:
            self._numbers[wanted] = self._numbers.get(wanted, 1) + 1
            found = f"{wanted}{self._numbers[wanted]}"
        self._taken.add(found)
        return found

    def of_all(self, names: Iterable[str], spell: Callable[[str], str] = camel) -> dict[str, str]:
        """One for each name. Names that are their own identifiers come first."""
        return {name: self.of(spell(name)) for name in sorted(names, key=lambda name: (name != spell(name), name))}


class Containers:
    """The containers of a registry. `names` are those with a form of their own, by what they are."""

    def __init__(self, containers: Mapping[str, Any], names: Mapping[str, Iterable[str]]) -> None:
        self.all = containers
        self.own_forms: dict[str, str] = {}
        for form in OWN_FORMS:
            for name in names.get(form, [form]):
                if containers.get(name) == _OF_32_BYTES:
                    self.own_forms[name] = form
                elif name not in OWN_FORMS:
                    raise ValueError(f"the registry has no newtype of 32 bytes called {name!r}")

    def content(self, name: str) -> Any:
        """The format that a newtype holds; of other containers, and of those with an own form, None."""
        container = self.all[name]
        if name in self.own_forms or container == "UNITSTRUCT":
            return None
        return container.get("NEWTYPESTRUCT")

    def holds_itself(self, name: str) -> bool:
        """Whether newtypes hold one another in a circle, so that there are no values."""
        seen: set[str] = set()
        content: Any = {"TYPENAME": name}
        while isinstance(content, dict) and "TYPENAME" in content:
            if content["TYPENAME"] in seen:
                return True
            seen.add(content["TYPENAME"])
            content = self.content(content["TYPENAME"])
        return False


def _arguments(words: list[str], options: Iterable[str]) -> tuple[dict[str, list[str]], str] | None:
    """The options with their arguments, and the registry; None if they are wrong."""
    found: dict[str, list[str]] = {}
    words = list(words)
    while len(words) > 1 and words[0] in {f"--{option}" for option in options}:
        option, argument = words.pop(0), words.pop(0)
        found.setdefault(option[2:], []).append(argument)
    return (found, words[0]) if len(words) == 1 and not words[0].startswith("-") else None


def declare(words: list[str], about: str, settings: Iterable[str], write: Callable[..., str]) -> int:
    """Runs a command, which prints what `write` returns for the containers and the settings, and returns the status."""
    settings = list(settings)
    if words in (["--help"], ["-h"]):
        print(about)
        return 0
    arguments = _arguments(words, [*settings, *OWN_FORMS])
    if arguments is None:
        usage = next(line for line in about.splitlines() if line.startswith("    python"))
        print(f"Usage: {usage.strip()}", file=sys.stderr)
        return 3
    options, registry = arguments
    try:
        text = os.fsencode(registry) if registry.startswith("{") else pathlib.Path(registry).read_bytes()
        with Registry(text):
            containers = Containers(json.loads(text), options)
        print(
            write(containers, **{setting: options[setting][-1] for setting in settings if setting in options}), end=""
        )
    except OSError as fault:
        print(f"fault: {fault}", file=sys.stderr)
        return 4
    except RegistryError as fault:
        print(fault, file=sys.stderr)
        return 2
    except ValueError as fault:
        print(fault, file=sys.stderr)
        return 3
    return 0
