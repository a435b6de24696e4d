"""Encodes values as canonical bytes (BCS) and back, using serde-reflection registries and a proved library.

    >>> from bcs_proved import Registry
    >>> registry = Registry({"Payment": {"STRUCT": [{"to": "STR"}, {"amount": "U64"}]}})
    >>> registry.encode("Payment", {"to": "bob", "amount": 7}).hex()
    '03626f620700000000000000'
    >>> registry.decode("Payment", bytes.fromhex("03626f620700000000000000"))
    {'to': 'bob', 'amount': 7}

Values are Python's own: integers are `int`, BYTES and lists of U8 are `bytes`, a struct is a dict, and a MAP a list of
pairs. What `decode` returns can be encoded again. The format decides what `encode` accepts at each place, never what a
value looks like: a `str` is never bytes (Hex("0aff") is), and any other type raises ValueTypeError. The methods with
`_json` in their names read and return JSON documents.

A format is a container's name, such as "Payment"; or its JSON, which begins with `{` or `"`, such as '"U8"' or
'{"SEQ":"U8"}'; or a dict, such as {"SEQ": "U8"}.

Any number of threads may use one registry at the same time. Calls release the GIL.
"""

from __future__ import annotations

from .errors import BcsError, BytesError, ExampleError, FormatError, GrowthError, LimitsError, PathError
from .errors import ModulesError, RegistryError, StackError, TextError, ValueTypeError
from .formats import Data, Format, Name, PlainName, Text
from .library import Library
from .limits import Limits
from .modules import MadeRegistry, registry_of_modules
from .registry import Form, Names, Part, Registry
from .values import Hex

__version__ = "0.1.0"

__all__ = [
    "BcsError",
    "BytesError",
    "Data",
    "ExampleError",
    "Form",
    "Format",
    "FormatError",
    "GrowthError",
    "Hex",
    "Library",
    "Limits",
    "LimitsError",
    "MadeRegistry",
    "ModulesError",
    "Name",
    "Names",
    "Part",
    "PathError",
    "PlainName",
    "Registry",
    "RegistryError",
    "StackError",
    "Text",
    "TextError",
    "ValueTypeError",
    "registry_of_modules",
]
