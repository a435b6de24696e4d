"""Containers of Move's own types, which have a form of their own in values: addresses and integers of 256 bits."""

from __future__ import annotations

from collections.abc import Iterable, Mapping
from typing import Any, Optional

__all__ = ["BYTES_OF_OWN_FORM", "own_forms"]

BYTES_OF_OWN_FORM = 32
# Each kind is also its default name, which is that of Move's type.
_KINDS = ("address", "u256", "i256")
_OF_32_BYTES = {"NEWTYPESTRUCT": {"TUPLEARRAY": {"CONTENT": "U8", "SIZE": BYTES_OF_OWN_FORM}}}


def own_forms(containers: Mapping[str, Any], names: Optional[Mapping[str, Iterable[str]]] = None) -> dict[str, str]:
    """The kind of each container that is called so: "address", "u256" or "i256". `names` has other names for a kind.
    Raises ValueError if the registry has no newtype of 32 bytes of such a name, unless it is a default name."""
    forms: dict[str, str] = {}
    for name, kind in _kinds_of_names(names or {}).items():
        if containers.get(name) == _OF_32_BYTES:
            forms[name] = kind
        elif name not in _KINDS:
            raise ValueError(f"names: the registry has no newtype of {BYTES_OF_OWN_FORM} bytes called {name!r}")
    return forms


def _kinds_of_names(names: Mapping[str, Iterable[str]]) -> dict[str, str]:
    unknown = [kind for kind in names if kind not in _KINDS]
    if unknown:
        raise ValueError(f"names: the kinds are {', '.join(_KINDS)}, not {unknown[0]!r}")
    kinds: dict[str, str] = {}
    for kind in _KINDS:
        own = names.get(kind, [kind])
        if isinstance(own, str):
            raise TypeError(f"names: {kind!r} takes a list of names, not a str")
        for name in own:
            if kinds.setdefault(name, kind) != kind:
                raise ValueError(f"names: {name!r} can't be both {kinds[name]} and {kind}")
    return kinds
