"""Types of a registry's values, for mypy and other checkers, as a module of Python:

    python -m bcs_proved.types [--plain-options] registry.json > payments.py

REGISTRY is a file, or the registry's JSON, which begins with `{`. Each container becomes a type: `decode` returns its
values, and `encode` accepts them. With --plain-options they are what `decode(.., plain_options=True)` returns. For each
container there is also its name as a format, such as PAYMENT for Payment, which gives `encode` and `decode` the type.

--address NAME, --u256 NAME and --i256 NAME are the names that the registry is opened with, such as
names={"address": ["AccountAddress"]}. Repeat an option for each name.

The status is 2 if the registry is refused, 3 for invalid arguments, and 4 if a file can't be read; standard error says
why.
"""

from __future__ import annotations

import builtins
import collections
import itertools
import json
import keyword
import os
import pathlib
import re
import sys
from typing import Any, Iterable, Iterator, Mapping, Optional

from bcs_proved import Names, Registry, RegistryError, Text
from bcs_proved.names import own_forms
from bcs_proved.values import Formats

__all__ = ["module_of"]

_HEAD = '''"""Made from a registry by bcs_proved.types: what `{decode}` returns, and `encode` accepts."""

from __future__ import annotations

from typing import TYPE_CHECKING, Any, Literal, NoReturn, Optional, TypedDict, Union, final

from bcs_proved import {name}

if TYPE_CHECKING:
    from typing_extensions import TypeAlias
'''
# What no type may be called: words of Python, what the module imports, and what is there in each module, since checkers
# take a name that comes later for that. (The second line has what isn't there in each version of Python.)
_TAKEN = [
    *[
        "TYPE_CHECKING",
        "Any",
        "Literal",
        "NoReturn",
        "Optional",
        "TypedDict",
        "Union",
        "final",
        "TypeAlias",
        "annotations",
        "Name",
        "PlainName",
    ],
    *[
        "aiter",
        "anext",
        "EncodingWarning",
        "BaseExceptionGroup",
        "ExceptionGroup",
        "PythonFinalizationError",
        "WindowsError",
    ],
    *["ellipsis", "function", "reveal_type", "reveal_locals", "case", "match", *keyword.kwlist, *dir(builtins)],
]
_LEAVES = {
    "UNIT": "None",
    "BOOL": "bool",
    "STR": "str",
    "BYTES": "bytes",
    "CHAR": "NoReturn",
    "F32": "NoReturn",
    "F64": "NoReturn",
}
_PLAIN = re.compile(r"[A-Za-z][A-Za-z0-9_]*")
# What comes before the name of a type of Move.
_MODULE = re.compile(r"0x[0-9a-f]+::[A-Za-z_][A-Za-z0-9_]*::")
# A field that may stand in the body of a class, where a name that begins with two underscores would become another one.
_FIELD = re.compile(r"_?[A-Za-z][A-Za-z0-9_]*")


def module_of(text: Text, plain_options: bool = False, names: Optional[Names] = None) -> str:
    """The module for a registry that is opened with these names, from its JSON. Raises RegistryError if it is invalid,
    and ValueError if it doesn't have the names."""
    with Registry(text, names=names):
        return _Writer(json.loads(text), plain_options, names).text()


def _only(thing: Mapping[str, Any]) -> tuple[str, Any]:
    (member,) = thing.items()
    return member


def _cleaned(text: str) -> str:
    letters = re.sub(r"[^A-Za-z0-9]+", "_", text).strip("_")
    return letters if letters[:1].isalpha() else f"T{letters}"


class _Identifiers:
    """Hands out identifiers, each once."""

    def __init__(self) -> None:
        self._taken = set(_TAKEN)
        # the next number to try behind each text
        self._numbers: dict[str, Iterator[int]] = {}

    def of_all(self, names: Iterable[str]) -> dict[str, str]:
        """One for each name, which is the name itself where that is a good one. Those of Move's types leave the modules
        out, if no other one is like that: CoinStore_AptosCoin for 0x1::coin::CoinStore<0x1::aptos_coin::AptosCoin>."""
        in_order = sorted(names)
        found = {name: self.of(name) for name in in_order if _PLAIN.fullmatch(name)}
        others = {name: _cleaned(_MODULE.sub("", name)) for name in in_order if name not in found}
        counts = collections.Counter(others.values())
        # (the short ones come first, so that no other name takes one)
        short = [name for name, like in others.items() if counts[like] == 1 and like not in self._taken]
        found |= {name: self.of(others[name]) for name in short}
        return found | {name: self.of(name) for name in others if name not in found}

    def of(self, text: str) -> str:
        """One like this text, with a number behind it where that is taken."""
        wanted = text if _PLAIN.fullmatch(text) else _cleaned(text)
        numbers = self._numbers.setdefault(wanted, itertools.count(2))
        found = wanted
        while found in self._taken:
            found = f"{wanted}_{next(numbers)}"
        self._taken.add(found)
        return found


class _Writer:
    """Writes the types of containers. In expressions that Python evaluates, a type's name is in quotes, since it may
    come later."""

    def __init__(self, containers: Mapping[str, Any], plain_options: bool, names: Optional[Names]) -> None:
        self._containers = containers
        self._own_forms = own_forms(containers, names)
        self._formats = Formats(containers, self._own_forms) if plain_options else None
        self._identifiers = _Identifiers()
        self._names = self._identifiers.of_all(containers)
        # what options hold, and the type of each
        self._options: dict[str, str] = {}

    def text(self) -> str:
        declared = [self._container(name) for name in sorted(self._containers)]
        options = [self._dict(own, {"some": held}, is_final=True) for held, own in self._options.items()]
        decode, name = ("decode(.., plain_options=True)", "PlainName") if self._formats else ("decode", "Name")
        head = _HEAD.format(decode=decode, name=name)
        return "\n\n".join([head, *declared, *options, "".join(self._constants(name))])

    def _constants(self, kind: str) -> Iterator[str]:
        """The names as formats: RAW_TRANSACTION for RawTransaction."""
        for name in sorted(self._containers):
            own = self._names[name]
            constant = re.sub(r"(?<=[a-z0-9])(?=[A-Z])|(?<=[A-Z])(?=[A-Z][a-z])", "_", own).upper()
            yield f'{self._identifiers.of(constant)} = {kind}["{own}"]({ascii(name)})\n'

    def _container(self, name: str) -> str:
        own, container = self._names[name], self._containers[name]
        note = "" if own == name else f"# The container {ascii(name)}.\n"
        if self._holds_itself(name):
            return f"{note}# It has no values, since it holds itself.\n{own}: TypeAlias = NoReturn\n"
        if container == "UNITSTRUCT":
            return f"{note}{own}: TypeAlias = None\n"
        if name in self._own_forms:
            return f"{note}{own}: TypeAlias = {'str' if self._own_forms[name] == 'address' else 'int'}\n"
        kind, inner = _only(container)
        if kind == "ENUM":
            return note + self._enum(own, [_only(inner[number]) for number in sorted(inner, key=int)])
        if kind == "STRUCT":
            return note + self._dict(own, self._fields(inner))
        return f"{note}{own}: TypeAlias = {self._format(inner) if kind == 'NEWTYPESTRUCT' else self._row(inner)}\n"

    def _holds_itself(self, name: str) -> bool:
        """Whether newtypes hold one another in a circle."""
        seen: set[str] = set()
        at: Optional[str] = name
        while at is not None and at not in seen:
            seen.add(at)
            at = self._newtype_of(at)
        return at is not None

    def _newtype_of(self, name: str) -> Optional[str]:
        """The container that this one is a newtype of, if it is one of a container."""
        container = self._containers[name]
        held = container.get("NEWTYPESTRUCT") if isinstance(container, dict) else None
        return held.get("TYPENAME") if isinstance(held, dict) else None

    def _enum(self, own: str, variants: list[tuple[str, Any]]) -> str:
        units = ", ".join(ascii(name) for name, payload in variants if payload == "UNIT")
        members, types = [f"Literal[{units}]"] if units else [], []
        for name, payload in variants:
            if payload != "UNIT":
                variant = self._identifiers.of(f"{own}_{name}")
                types += self._variant(variant, name, *_only(payload))
                members.append(f'"{variant}"')
        joined = "".join(f"\n    {member}," for member in members)
        union = members[0] if len(members) == 1 else f"Union[{joined}\n]" if members else "NoReturn"
        return "\n\n".join([*types, f"{own}: TypeAlias = {union}\n"])

    def _variant(self, own: str, name: str, kind: str, inner: Any) -> list[str]:
        """The type of an object with the one member, behind that of its fields, if it has any."""
        if kind != "STRUCT":
            return [
                self._dict(own, {name: self._format(inner) if kind == "NEWTYPE" else self._row(inner)}, is_final=True)
            ]
        fields = self._identifiers.of(f"{own}_Fields")
        return [self._dict(fields, self._fields(inner)), self._dict(own, {name: f'"{fields}"'}, is_final=True)]

    def _fields(self, fields: list[Mapping[str, Any]]) -> dict[str, str]:
        return {name: self._format(format) for name, format in map(_only, fields)}

    def _dict(self, own: str, fields: Mapping[str, str], is_final: bool = False) -> str:
        """A class, where its body can have the names, and none is a word in the type of another field."""
        words = re.findall(r"\w+", " ".join(fields.values())) if len(fields) > 1 else []
        if not all(_FIELD.fullmatch(name) and not keyword.iskeyword(name) and name not in words for name in fields):
            members = "".join(f"\n        {ascii(name)}: {held}," for name, held in fields.items())
            return f'{own} = TypedDict(\n    "{own}",\n    {{{members}\n    }},\n)\n'
        # (in the body of a class annotations aren't evaluated)
        members = "".join(f"    {name}: {held}\n" for name, held in fields.items()).replace('"', "")
        head = f"@final\nclass {own}(TypedDict):\n" if is_final else f"class {own}(TypedDict):\n"
        return head + (members or "    pass\n")

    def _format(self, format: Any) -> str:
        if isinstance(format, str):
            return _LEAVES.get(format, "int")
        kind, inner = _only(format)
        if kind == "TYPENAME":
            return f'"{self._names[inner]}"'
        if kind == "OPTION":
            if self._formats and self._formats.is_plain(inner):
                return f"Optional[{self._format(inner)}]"
            return f'Optional["{self._option(self._format(inner))}"]'
        if kind == "MAP":
            return f"list[{self._row([inner['KEY'], inner['VALUE']])}]"
        if kind == "TUPLE":
            return self._row(inner)
        element = inner["CONTENT"] if kind == "TUPLEARRAY" else inner
        return "bytes" if element == "U8" else f"list[{self._format(element)}]"

    def _option(self, held: str) -> str:
        if held not in self._options:
            self._options[held] = self._identifiers.of(f"Some_{held}")
        return self._options[held]

    def _row(self, formats: list[Any]) -> str:
        """A list, since JSON has no others, of what may stand at any place in it. Checkers can't tell which of two
        lists, or of two dicts, an expression is to be, so there anything may stand."""
        parts = {self._format(format): format for format in formats}
        if "NoReturn" in parts:
            return "NoReturn"
        if len(parts) == 1:
            return f"list[{next(iter(parts))}]"
        kinds = [kind for kind in map(self._kind, parts.values()) if kind]
        return f"list[Union[{', '.join(parts)}]]" if parts and len(kinds) == len(set(kinds)) else "list[Any]"

    def _kind(self, format: Any) -> str:
        """Whether a value may be a list or a dict."""
        while not isinstance(format, str):
            kind, inner = _only(format)
            if kind == "OPTION" and not (self._formats and self._formats.is_plain(inner)):
                return "dict"
            if kind == "OPTION":
                format = inner
                continue
            if kind != "TYPENAME":
                return "" if self._format(format) == "bytes" else "list"
            container = self._containers[inner]
            if container == "UNITSTRUCT" or inner in self._own_forms or self._holds_itself(inner):
                return ""
            kind, format = _only(container)
            if kind != "NEWTYPESTRUCT":
                return "list" if kind == "TUPLESTRUCT" else "dict"
        return ""


def _names_of(words: list[str]) -> dict[str, list[str]]:
    """Takes the options with names from the beginning of the arguments."""
    names: dict[str, list[str]] = {}
    while len(words) > 1 and words[0] in ("--address", "--u256", "--i256"):
        option, name = words.pop(0), words.pop(0)
        names.setdefault(option[2:], []).append(name)
    return names


def main(words: list[str]) -> int:
    """Prints the module, and returns the status."""
    if words in (["--help"], ["-h"]):
        print(__doc__)
        return 0
    plain_options = words[:1] == ["--plain-options"]
    words = words[1:] if plain_options else words
    names = _names_of(words)
    if len(words) != 1 or words[0].startswith("-"):
        usage = "[--plain-options] [--address NAME] [--u256 NAME] [--i256 NAME] REGISTRY > registry.py"
        print(f"Usage: python -m bcs_proved.types {usage}", file=sys.stderr)
        return 3
    try:
        text = os.fsencode(words[0]) if words[0].startswith("{") else pathlib.Path(words[0]).read_bytes()
        print(module_of(text, plain_options, names), end="")
    except ValueError as fault:
        print(fault, file=sys.stderr)
        return 3
    except OSError as fault:
        print(f"fault: {fault}", file=sys.stderr)
        return 4
    except RegistryError as fault:
        print(fault, file=sys.stderr)
        return 2
    return 0


if __name__ == "__main__":
    sys.exit(main(sys.argv[1:]))
