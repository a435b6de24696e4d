"""Refusals: a class for each kind of thing that is refused."""

from __future__ import annotations

from typing import Optional

__all__ = [
    "BcsError",
    "BytesError",
    "ExampleError",
    "FormatError",
    "GrowthError",
    "LimitsError",
    "ModulesError",
    "PathError",
    "RegistryError",
    "StackError",
    "TextError",
    "ValueTypeError",
]


class BcsError(Exception):
    """A refusal. As a string it is one line: "refused: BadNumber at /amount: expected an integer ..".

    `kind` is what is refused, a word for each subclass. `reason` is the fault's name, such as "BadBool", and empty for
    limits and stacks. `place` is the offset where bytes stop being a value, and None for everything else.

    `at` says where the fault is: a JSON Pointer, such as "/payload/args/1", for values, JSON and formats; a field path,
    such as ".payload.args[1]", for bytes; a definition, such as "Shape, field side", for registries and growth; a step,
    such as "step 2 x", for paths; and for modules a JSON Pointer, or the type that was requested. Names are as they
    are, never escaped or cut. It is empty, or "." for bytes, if the whole is refused. `message` says what is wrong
    there. It is for people, and may change."""

    kind = ""

    def __init__(self, reason: str, place: Optional[int] = None, at: str = "", message: str = "") -> None:
        super().__init__(reason, place, at, message)
        self.reason = reason
        self.place = place
        self.at = at
        self.message = message

    def __str__(self) -> str:
        where = ", ".join(part for part in ("" if self.place is None else f"byte {self.place}", self.at) if part)
        reason = f"{self.reason} at {where}" if where else self.reason
        return ": ".join(part for part in ("refused", reason, self.message) if part)


class RegistryError(BcsError):
    """The registry is invalid."""

    kind = "registry"


class FormatError(BcsError):
    """The registry has no such format."""

    kind = "format"


class LimitsError(BcsError, ValueError):
    """Limits are out of range."""

    kind = "limits"


class TextError(BcsError):
    """The JSON doesn't match the format, or neither does a value."""

    kind = "text"


class ValueTypeError(TextError, TypeError):
    """A value has a type that its format doesn't accept, such as `bytes` at a U64. It is raised before the library is
    called. `at` is the JSON Pointer of the value, and `message` names the types, such as "U64 takes an int, not
    bytes"."""

    kind = "value"


class BytesError(BcsError):
    """The bytes aren't an encoding of the format; or the value's JSON would nest too deep, and then there is no
    `place`."""

    kind = "bytes"


class PathError(BcsError):
    """The path, name or pointer of a part is invalid."""

    kind = "path"


class GrowthError(BcsError):
    """The newer registry doesn't keep everything that the older one has."""

    kind = "growth"


class ExampleError(BcsError):
    """There is no example of the format: it has no values, no variant of that name, or none within the limits."""

    kind = "example"


class ModulesError(BcsError):
    """There is no registry for these types of these modules of a Move chain."""

    kind = "modules"


class StackError(BcsError):
    """The thread has too little stack left for the call. On a thread with 8 MiB it doesn't happen."""

    kind = "stack"
