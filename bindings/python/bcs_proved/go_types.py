"""Types of a registry's values, for Go, as a file of a package:

    python -m bcs_proved.go_types [--package NAME] [--address NAME] [--u256 NAME] [--i256 NAME] REGISTRY > registry.go

REGISTRY is a file, or the registry's JSON, which begins with `{`. Each container becomes a type: the module bcsproved
encodes its values with `Encode`, and stores values in it with `Unmarshal`. An enum is a struct with a pointer for each
variant, of which one isn't nil.

--address, --u256 and --i256 name containers of 32 bytes that are addresses ("0x…") and integers of 256 bits; repeat an
option for each name. Then pass the variable `Names` of the file to `Open`. Without them, the containers called address,
u256 and i256 are such.

The status is 2 if the registry is refused, 3 for invalid arguments, and 4 if a file can't be read; standard error says
why.
"""

from __future__ import annotations

import json
import re
import sys
from typing import Any

from bcs_proved.declaring import OWN_FORMS, Containers, Identifiers, camel, declare, escaped, only

__all__ = ["quoted", "source_of"]

_NONE = "any"
_BIG = "*big.Int"
_LEAVES = {
    **{"UNIT": "struct{}", "BOOL": "bool", "STR": "string", "BYTES": "[]byte", "U128": _BIG, "I128": _BIG},
    **{"CHAR": _NONE, "F32": _NONE, "F64": _NONE},
}
_KEYS = {"BOOL", "STR", "U8", "U16", "U32", "U64", "I8", "I16", "I32", "I64"}
_VARIABLES = {"address": "Addresses", "u256": "U256", "i256": "I256"}
# A longer one would make variables large, and is a slice.
_LONGEST_ARRAY = 1024
# This tag leaves a field out, so a struct can't have a field of that name.
_LEFT_OUT = "-"


def source_of(containers: Containers, package: str = "registry") -> str:
    """The file for a registry."""
    if not re.fullmatch(r"[a-z][a-z0-9_]*", package):
        raise ValueError(f"not the name of a package: {package!r}")
    return _Writer(containers).text(package)


def quoted(text: str) -> str:
    """A string literal of Go."""
    return escaped(text, lambda code: f"\\u{code:04x}" if code < 0x10000 else f"\\U{code:08x}")


def _tag(name: str) -> str:
    tag = f"bcs:{quoted(name)}"
    return quoted(tag) if "`" in tag else f"`{tag}`"


class _Writer:
    def __init__(self, containers: Containers) -> None:
        self._containers = containers
        self._identifiers = Identifiers(["Names"])
        self._names = self._identifiers.of_all(containers.all)
        self._cyclic = _Values(containers).cyclic()
        # The types of tuples, by their formats.
        self._tuples: dict[str, str] = {}
        self._declared: list[str] = []
        self._imports: set[str] = set()

    def text(self, package: str) -> str:
        for name in sorted(self._containers.all):
            self._container(name)
        named = self._named()
        imports = "".join(f'\t"{path}"\n' for path in sorted(self._imports, key=lambda path: ("." in path, path)))
        imports = imports.replace('"\n\t"fodrascu', '"\n\n\t"fodrascu')
        head = "// Code generated from a registry by bcs_proved.go_types. DO NOT EDIT.\n\n"
        head += f"package {package}\n" + (f"\nimport (\n{imports})\n" if imports else "")
        return "\n".join([head, *named, *self._declared])

    def _named(self) -> list[str]:
        """What to open the registry with."""
        lists = []
        for form in OWN_FORMS:
            names = [name for name, own in self._containers.own_forms.items() if own == form]
            if names not in ([], [form]):
                lists.append(f"{_VARIABLES[form]}: []string{{{', '.join(map(quoted, names))}}}")
        if not lists:
            return []
        self._import("fodrascu.example/bcsproved")
        return [f"// Names are to be passed to Open.\nvar Names = bcsproved.Names{{{', '.join(lists)}}}\n"]

    def _import(self, path: str) -> None:
        self._imports.add(path)

    def _container(self, name: str) -> None:
        own = self._names[name]
        container = self._containers.all[name]
        note = f"// {own} is the container {quoted(name)}.\n" if own != name else ""
        if self._containers.holds_itself(name):
            self._declare(f"{note}// {own} has no values, since it holds itself.\ntype {own} = {_NONE}\n")
        elif container == "UNITSTRUCT" or name in self._containers.own_forms:
            self._declare(f"{note}type {own} {self._plain(name)}\n")
        else:
            kind, inner = only(container)
            if kind == "ENUM":
                self._enum(note, own, inner)
            elif kind == "STRUCT":
                self._struct(note, own, _fields(inner))
            elif kind == "TUPLESTRUCT":
                self._tuple(note, own, inner)
            else:
                self._declare(f"{note}type {own} {'= ' if self._is_alias(name) else ''}{self._format(inner)}\n")

    def _declare(self, text: str) -> None:
        self._declared.append(text)

    def _plain(self, name: str) -> str:
        form = self._containers.own_forms.get(name)
        if form is None:
            return "= struct{}"
        return "string" if form == "address" else f"= {self._big()}"

    def _big(self) -> str:
        self._import("math/big")
        return _BIG

    def _is_alias(self, name: str) -> bool:
        """Whether the type must be the one that it stands for: a new one would be another type for reflection."""
        content: Any = {"TYPENAME": name}
        while isinstance(content, dict) and "TYPENAME" in content:
            name = content["TYPENAME"]
            content = self._containers.content(name)
        if content is not None:
            return isinstance(content, str) and _LEAVES.get(content) in ("struct{}", _BIG, _NONE)
        container = self._containers.all[name]
        is_variant = isinstance(container, dict) and "ENUM" in container and not self._can_be_struct(container["ENUM"])
        return self._containers.own_forms.get(name) != "address" and (
            is_variant or container == "UNITSTRUCT" or name in self._containers.own_forms
        )

    def _struct(self, note: str, own: str, fields: dict[str, Any]) -> None:
        if _LEFT_OUT in fields:
            self._declare(f"{note}// A struct can't have the field {_LEFT_OUT}.\ntype {own} map[string]any\n")
            return
        self._declare(f"{note}type {own} " + self._body({name: self._part(format) for name, format in fields.items()}))

    def _tuple(self, note: str, own: str, formats: list[Any]) -> None:
        if not formats:
            self._declare(f"{note}type {own} [0]struct{{}}\n")
            return
        parts = {str(place): self._part(format) for place, format in enumerate(formats)}
        self._declare(f"{note}type {own} " + self._body(parts))

    def _body(self, parts: dict[str, str]) -> str:
        """The fields of a struct, formatted like gofmt does it."""
        fields = Identifiers()
        names = {name: fields.of(f"F{name}" if name.isdigit() else camel(name)) for name in parts}
        widest = max(map(len, names.values()), default=0), max(map(len, parts.values()), default=0)
        lines = [f"\t{names[name]:{widest[0]}} {held:{widest[1]}} {_tag(name)}\n" for name, held in parts.items()]
        return f"struct {{\n{''.join(lines)}}}\n" if lines else "struct{}\n"

    def _can_be_struct(self, variants: dict[str, Any]) -> bool:
        return bool(variants) and not any(_LEFT_OUT in variant for variant in variants.values())

    def _enum(self, note: str, own: str, variants: dict[str, Any]) -> None:
        if not self._can_be_struct(variants):
            self._import("fodrascu.example/bcsproved")
            self._declare(f"{note}type {own} = bcsproved.Variant\n")
            return
        parts = {}
        place = len(self._declared)
        for name, payload in (only(variants[number]) for number in sorted(variants, key=int)):
            parts[name] = "*" + self._payload(own + camel(name), payload)
        text = f"{note}type {own} " + self._body(parts)
        self._declared.insert(place, text)

    def _payload(self, own: str, payload: Any) -> str:
        """The type of a variant's content, which is declared if it has no name."""
        if payload == "UNIT":
            return "struct{}"
        kind, inner = only(payload)
        if kind == "NEWTYPE":
            return self._format(inner)
        own = self._identifiers.of(own)
        if kind == "STRUCT":
            self._struct("", own, _fields(inner))
        else:
            self._tuple("", own, inner)
        return own

    def _part(self, format: Any) -> str:
        """The type of a field. A pointer ends a cycle of structs, which then has no values."""
        is_cyclic = isinstance(format, dict) and format.get("TYPENAME") in self._cyclic
        return ("*" if is_cyclic else "") + self._format(format)

    def _format(self, format: Any) -> str:
        if isinstance(format, str):
            return self._leaf(format)
        kind, inner = only(format)
        if kind == "TYPENAME":
            return self._names[inner]
        if kind == "OPTION":
            return "*" + self._format(inner)
        if kind == "MAP":
            return self._map(inner["KEY"], inner["VALUE"])
        if kind == "TUPLE":
            return self._tuple_type(inner)
        element = inner["CONTENT"] if kind == "TUPLEARRAY" else inner
        if element != "U8":
            return "[]" + self._format(element)
        is_array = kind == "TUPLEARRAY" and inner["SIZE"] <= _LONGEST_ARRAY
        return f"[{inner['SIZE']}]byte" if is_array else "[]byte"

    def _leaf(self, word: str) -> str:
        held = _LEAVES.get(word) or f"{'int' if word[0] == 'I' else 'uint'}{word[1:]}"
        return self._big() if held == _BIG else held

    def _map(self, key: Any, value: Any) -> str:
        keys, values = self._format(key), self._format(value)
        if self._is_key(key):
            return f"map[{keys}]{values}"
        self._import("fodrascu.example/bcsproved")
        return f"[]bcsproved.EntryOf[{keys}, {values}]"

    def _is_key(self, format: Any) -> bool:
        """Whether values of the type can be keys of a map, and are equal if their bytes are."""
        while isinstance(format, dict) and "TYPENAME" in format:
            name = format["TYPENAME"]
            if self._containers.own_forms.get(name) == "address":
                return True
            if self._containers.holds_itself(name):
                return False
            format = self._containers.content(name)
        if isinstance(format, dict) and "TUPLEARRAY" in format:
            return self._format(format).startswith("[") and not self._format(format).startswith("[]")
        return isinstance(format, str) and format in _KEYS

    def _tuple_type(self, formats: list[Any]) -> str:
        if not formats:
            return "[0]struct{}"
        key = json.dumps(formats)
        if key not in self._tuples:
            self._tuples[key] = self._identifiers.of("Tuple")
            self._tuple("", self._tuples[key], formats)
        return self._tuples[key]


def _fields(fields: list[dict[str, Any]]) -> dict[str, Any]:
    return dict(map(only, fields))


class _Values:
    """Which containers hold one another directly, and not behind an option, a list, a map or an enum."""

    def __init__(self, containers: Containers) -> None:
        self._held = {name: list(_held_by(container)) for name, container in containers.all.items()}

    def cyclic(self) -> set[str]:
        """Those that hold themselves, or one that does: what is left without those that hold only what was taken."""
        waiting = {name: len(held) for name, held in self._held.items()}
        holders: dict[str, list[str]] = {name: [] for name in self._held}
        for name, held in self._held.items():
            for part in held:
                holders[part].append(name)
        taken = [name for name, count in waiting.items() if count == 0]
        for name in taken:
            for holder in holders[name]:
                waiting[holder] -= 1
                if waiting[holder] == 0:
                    taken.append(holder)
        return set(self._held) - set(taken)


def _held_by(container: Any) -> list[str]:
    if container == "UNITSTRUCT" or "ENUM" in container:
        return []
    kind, inner = only(container)
    formats = list(_fields(inner).values()) if kind == "STRUCT" else inner if kind == "TUPLESTRUCT" else [inner]
    return [name for format in formats for name in _names_in(format)]


def _names_in(format: Any) -> list[str]:
    if isinstance(format, str):
        return []
    kind, inner = only(format)
    if kind == "TYPENAME":
        return [inner]
    return [name for part in inner for name in _names_in(part)] if kind == "TUPLE" else []


if __name__ == "__main__":
    sys.exit(declare(sys.argv[1:], __doc__, ["package"], source_of))
