"""Types of a registry's values, for Java, as a class with records and sealed interfaces:

    python -m bcs_proved.java_types [--package NAME] [--name NAME] [--address NAME] [--u256 NAME] [--i256 NAME] REGISTRY

Prints the class, which is called Types or as --name says. REGISTRY is a file, or the registry's JSON, which begins with
`{`. A struct, a unit struct and a tuple struct are a record, and an enum is a sealed interface with a record for each
variant: `encode` accepts them, and `decode` with their class returns them. A newtype is what it holds.

--address, --u256 and --i256 name containers of 32 bytes that are addresses ("0x…") and integers of 256 bits; repeat an
option for each name, and open the registry with the same names. Without them, the containers called address, u256 and
i256 are such.

The status is 2 if the registry is refused, 3 for invalid arguments, and 4 if a file can't be read; standard error says
why.
"""

from __future__ import annotations

import json
import re
import sys
from typing import Any

from bcs_proved.declaring import Containers, Identifiers, camel, declare, escaped, only

__all__ = ["source_of", "type_names"]

_LEAVES = {
    **{"UNIT": "Unit", "BOOL": "boolean", "STR": "String", "BYTES": "byte[]"},
    **{"I8": "int", "U8": "int", "I16": "int", "U16": "int", "I32": "int", "U32": "long", "I64": "long"},
    **{"CHAR": "Object", "F32": "Object", "F64": "Object"},
}
_WIDE = "BigInteger"
_BOXES = {"boolean": "Boolean", "int": "Integer", "long": "Long"}
_KEYS = {"Boolean", "Integer", "Long", "String", _WIDE}
_IMPORTS = {
    **{name: f"bcsproved.{name}" for name in ("Bcs", "Hex", "Unit", "Variant")},
    **{name: f"java.util.{name}" for name in ("List", "Map", "Optional")},
    _WIDE: f"java.math.{_WIDE}",
}
_TAKEN = [*_IMPORTS, *_BOXES.values(), "String", "Object", "Record", "Override"]
# What a component of a record can't be called.
_WORDS = """abstract assert boolean break byte case catch char class const continue default do double else enum
    extends false final finally float for goto if implements import instanceof int interface long native new
    null package private protected public return short static strictfp super switch synchronized this throw
    throws transient true try void volatile while clone finalize getClass hashCode notify notifyAll toString
    wait""".split()
# A method has at most 255 parameters, where a long counts twice; and a constant 65535 bytes.
_MOST_COMPONENTS = 120
_LONGEST_NAME = 10_000
# Types of newtypes in newtypes may double in length with each.
_LONGEST_TYPE = 500


def source_of(containers: Containers, package: str = "", name: str = "Types") -> str:
    """The class for a registry."""
    if not re.fullmatch(r"([a-z][a-z0-9_]*(\.[a-z][a-z0-9_]*)*)?", package) or set(package.split(".")) & set(_WORDS):
        raise ValueError(f"not the name of a package: {package!r}")
    if not re.fullmatch(r"[A-Z][A-Za-z0-9]*", name) or name in _TAKEN:
        raise ValueError(f"not a name for the class: {name!r}")
    return _Writer(containers, name).text(package)


def type_names(containers: Containers, name: str = "Types") -> dict[str, str]:
    """The containers that have a record or an interface, and what it is called in the class."""
    writer = _Writer(containers, name)
    return {container: own for container, own in writer.names.items() if writer.is_declared(container)}


def _quoted(text: str) -> str:
    units = text.encode("utf-16-be", "surrogatepass")
    codes = (int.from_bytes(units[at : at + 2], "big") for at in range(0, len(units), 2))
    return escaped("".join(map(chr, codes)), lambda code: f"\\{code:03o}" if code < 0x80 else f"\\u{code:04x}")


def _boxed(held: str) -> str:
    return _BOXES.get(held, held)


def _components(parts: dict[str, str]) -> str:
    """The components of a record, for parts by their names."""
    used = Identifiers(_WORDS)
    lines = []
    for name, held in parts.items():
        own = camel(f"f{name}" if name.isdigit() else name)
        lines.append(f"@Bcs({_quoted(name)}) {held} {used.of(own[0].lower() + own[1:])}")
    return "(" + (f",\n{' ' * 12}".join(["", *lines])[1:] if lines else "") + ")"


class _Writer:
    def __init__(self, containers: Containers, name: str) -> None:
        self._containers = containers
        self._class = name
        self._identifiers = Identifiers([*_TAKEN, name])
        self.names = self._identifiers.of_all(containers.all)
        # The records of tuples, by their formats.
        self._tuples: dict[str, str] = {}
        # Types of newtypes; while one is made, it is an Object in itself.
        self._newtypes: dict[str, str] = {}
        # What an enum's own records are called, inside it; None where that isn't known, and a full name is needed.
        self._shadowed: set[str] | None = set()
        self._declared: list[str] = []

    def text(self, package: str) -> str:
        for name in sorted(self._containers.all):
            if self.is_declared(name):
                self._container(name)
        body = "\n\n".join([f"    private {self._class}() {{}}", *self._declared])
        used = set(re.findall(r"\w+", re.sub(r'"(\\.|[^"\\])*"', "", body)))
        imports = [f"import {path};" for name, path in sorted(_IMPORTS.items(), key=lambda i: i[1]) if name in used]
        head = "// Made from a registry by bcs_proved.java_types." + (f"\npackage {package};" if package else "")
        parts = [head, "\n".join(imports), f"public final class {self._class} {{\n{body}\n}}\n"]
        return "\n\n".join(part for part in parts if part)

    def is_declared(self, name: str) -> bool:
        """Whether the container has a type of its own."""
        container = self._containers.all[name]
        if container == "UNITSTRUCT":
            return True
        kind, inner = only(container)
        if kind == "ENUM":
            return bool(inner) and all(self._is_record(*only(variant)) for variant in inner.values())
        return kind != "NEWTYPESTRUCT" and self._is_record("", {kind: inner})

    def _is_record(self, name: str, payload: Any) -> bool:
        """Whether a record can have these parts, which have these names."""
        if len(name) > _LONGEST_NAME or payload == "UNIT":
            return len(name) <= _LONGEST_NAME
        kind, inner = only(payload)
        names = [field for part in inner for field in part] if kind == "STRUCT" else []
        is_short = not kind.startswith(("STRUCT", "TUPLE")) or len(inner) <= _MOST_COMPONENTS
        return is_short and all(len(field) <= _LONGEST_NAME for field in names)

    def _container(self, name: str) -> None:
        own, container = self.names[name], self._containers.all[name]
        note = "" if own == name else f"    // The container {_quoted(name)}.\n"
        if container == "UNITSTRUCT":
            self._declared.append(f"{note}    public record {own}() {{}}")
            return
        kind, inner = only(container)
        if kind == "ENUM":
            self._enum(note, own, [only(inner[number]) for number in sorted(inner, key=int)])
        else:
            self._declared.append(f"{note}    public record {own}{_components(self._parts(kind, inner))} {{}}")

    def _enum(self, note: str, own: str, variants: list[tuple[str, Any]]) -> None:
        used = Identifiers([*_TAKEN, self._class, own])
        names = used.of_all(name for name, _ in variants)
        self._shadowed = set(names.values())
        records = []
        for name, payload in variants:
            parts = {} if payload == "UNIT" else self._parts(*only(payload))
            components = _components(parts)
            if payload != "UNIT" and "NEWTYPE" in payload:
                components = f"({parts['value']} value)"
            records.append(
                f"        @Bcs({_quoted(name)})\n        record {names[name]}{components} implements {own} {{}}\n"
            )
        self._shadowed = set()
        self._declared.append(f"{note}    public sealed interface {own} {{\n" + "\n".join(records) + "    }")

    def _parts(self, kind: str, inner: Any) -> dict[str, str]:
        if kind == "STRUCT":
            return {name: self._format(format) for name, format in map(only, inner)}
        formats = {"value": inner} if kind == "NEWTYPE" else {str(place): part for place, part in enumerate(inner)}
        return {name: self._format(format) for name, format in formats.items()}

    def _format(self, format: Any) -> str:
        if isinstance(format, str):
            return _LEAVES.get(format, _WIDE)
        kind, inner = only(format)
        if kind == "TYPENAME":
            return self._name(inner)
        if kind == "OPTION":
            return f"Optional<{_boxed(self._format(inner))}>"
        if kind == "MAP":
            return self._map(_boxed(self._format(inner["KEY"])), _boxed(self._format(inner["VALUE"])))
        if kind == "TUPLE":
            return self._tuple(inner)
        element = inner["CONTENT"] if kind == "TUPLEARRAY" else inner
        return "byte[]" if element == "U8" else f"List<{_boxed(self._format(element))}>"

    def _map(self, key: str, value: str) -> str:
        if key == "byte[]":
            return f"Map<Hex, {value}>"
        return f"Map<{key}, {value}>" if key in _KEYS else f"List<Map.Entry<{key}, {value}>>"

    def _tuple(self, formats: list[Any]) -> str:
        """The record of a tuple. A record without components is a unit, and one can't have many."""
        if not 0 < len(formats) <= _MOST_COMPONENTS:
            return "List<Object>"
        key = json.dumps(formats)
        if key not in self._tuples:
            self._tuples[key] = self._identifiers.of("Tuple")
            shadowed, self._shadowed = self._shadowed, set()
            components = _components(self._parts("TUPLE", formats))
            self._shadowed = shadowed
            self._declared.append(f"    public record {self._tuples[key]}{components} {{}}")
        return self._reference(self._tuples[key])

    def _name(self, name: str) -> str:
        """The type of a container."""
        form = self._containers.own_forms.get(name)
        if form is not None:
            return "String" if form == "address" else _WIDE
        if self.is_declared(name):
            return self._reference(self.names[name])
        kind, inner = only(self._containers.all[name])
        if kind != "NEWTYPESTRUCT":
            return {"ENUM": "Variant", "STRUCT": "Map<String, Object>"}.get(kind, "List<Object>")
        return self._newtype(name, inner)

    def _newtype(self, name: str, content: Any) -> str:
        if name not in self._newtypes:
            self._newtypes[name] = "Object"
            shadowed, self._shadowed = self._shadowed, None
            held = self._format(content)
            self._shadowed = shadowed
            self._newtypes[name] = held if len(held) <= _LONGEST_TYPE else "Object"
        return self._newtypes[name]

    def _reference(self, own: str) -> str:
        return f"{self._class}.{own}" if self._shadowed is None or own in self._shadowed else own


if __name__ == "__main__":
    sys.exit(declare(sys.argv[1:], __doc__, ["package", "name"], source_of))
