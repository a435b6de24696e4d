"""Registries that are made from the modules of Move chains, which are those of tests/move_modules.py and tests/move.

What is expected doesn't come from a program: refusals with their places and messages from the table REFUSED; registries
and notes that were worked out by hand; and the values that tests/move/independent.py decodes, which knows no registry.
"""

import json
import random
import sys
from collections.abc import Callable, Iterator
from functools import partial
from typing import Any, NamedTuple

from driver import Answer, Driver, Question, Refused, expect
from places import place_told
from tests import ROOT
from words import format_of

# (the modules in this folder come first: some have the names of scripts there)
sys.path.append(str(ROOT / "tests"))
from move import independent  # noqa: E402
from move_modules import (  # noqa: E402
    AC,
    ADDRESS,
    APTOS,
    ARGUMENT,
    CAFE,
    FINE,
    OBJECT,
    RANDOM_TYPES,
    REFUSED,
    SUI,
    WITHOUT_ABI,
    swapped,
)

# For each type of RANDOM_TYPES.
INPUTS = 6
GROWING = ["u8", "u16", "u32", "u64", "u128", "u256", "bool", "address", "i8", "i16", "i32", "i64"]
TRANSFER = {"STRUCT": [{"arg0": {"TYPENAME": "address"}}, {"arg1": "U64"}]}
STAKE = "0x3::sui_system::request_add_stake_mul_coin"


class Made(NamedTuple):
    """Modules, the types that are requested of them, containers of the registry, and notes."""

    modules: Any
    types: list[str]
    containers: dict[str, Any]
    notes: list[str]


STANDARD = {
    "0x1::option::Option<u64>": {"NEWTYPESTRUCT": {"OPTION": "U64"}},
    "0x1::string::String": {"NEWTYPESTRUCT": "STR"},
    "vector<u8>": {"NEWTYPESTRUCT": "BYTES"},
    "u256": ADDRESS,
    "address": ADDRESS,
}
SHAPE: dict[str, Any] = {
    "0": {"Point": "UNIT"},
    "1": {"Circle": {"STRUCT": [{"radius": "U64"}]}},
    "2": {"Box": {"STRUCT": [{"pos0": "U32"}, {"pos1": "U16"}]}},
    "3": {
        "Any": {
            "STRUCT": [{"id": {"TYPENAME": "0x2::object::ID"}}, {"tags": {"SEQ": "STR"}}, {"big": {"TYPENAME": "u256"}}]
        }
    },
}
# In BCS, an integer's lowest byte comes first.
LITTLE_ENDIAN = f"u256 and i256 are little-endian: 1 is {(1).to_bytes(32, 'little').hex()}"
MADE = [
    Made([], [], {}, []),
    *(Made(modules, list(STANDARD), STANDARD, [LITTLE_ENDIAN]) for modules in (APTOS, SUI, [])),
    Made(FINE, ["0x1::m::S"], {"0x1::m::S": {"STRUCT": [{"a": "U8"}]}}, []),
    Made([WITHOUT_ABI, FINE], ["0x1::m::S"], {"0x1::m::S": {"STRUCT": [{"a": "U8"}]}}, []),
    Made(
        SUI,
        ["0xcafe::shapes::Shape<u16>"],
        {f"{CAFE}::shapes::Shape<u16>": {"ENUM": SHAPE}, "u256": ADDRESS},
        [f'"0xcafe::shapes::Shape<u16>": the container is called {CAFE}::shapes::Shape<u16>', LITTLE_ENDIAN],
    ),
    Made(
        APTOS,
        ["0x1::aptos_account::transfer", f"0x1::coin::transfer<{AC}>"],
        {
            "0x1::aptos_account::transfer": TRANSFER,
            "0x1::aptos_account::transfer::arg1": {"NEWTYPESTRUCT": "U64"},
            f"0x1::coin::transfer<{AC}>": TRANSFER,
        },
        [],
    ),
    Made(
        SUI,
        [STAKE, "0x02::url::Url"],
        {
            STAKE: {"STRUCT": [{"arg2": {"OPTION": "U64"}}, {"arg3": {"TYPENAME": "address"}}]},
            "0x2::url::Url": {"STRUCT": [{"url": "STR"}]},
        },
        [
            f"{STAKE}: arg0 is 0x3::sui_system::SuiSystemState{OBJECT}",
            f"{STAKE}: arg1 is vector<0x2::coin::Coin<0x2::sui::SUI>>{OBJECT}",
            '"0x02::url::Url": the container is called 0x2::url::Url',
            "0x1::ascii::String is STR, which also accepts text that isn't ASCII: 1, first for "
            "/1/result/url/structs/Url/fields/0/type",
        ],
    ),
]


LONG = "a" * 1000
# Names that are no text of C, that aren't ASCII, or are long.
ODD = [
    ("[]", "\0", "BadType", ARGUMENT, '"\\u0000" isn\'t a type'),
    ("[]", "a\0b\0", "BadType", ARGUMENT, '"a\\u0000b\\u0000" isn\'t a type'),
    ("[]", "é🦀", "BadType", ARGUMENT, '"\\u00e9'),
    ("[]", "u8\r", "BadType", ARGUMENT, "isn't a type"),
    ("[]", "signer", "NoBytes", ARGUMENT, "a signer has no bytes"),
    ('{"é\\u0000":[{"b":1,"b":2}]}', "u8", "RepeatedMember", "/é\0/0/b", "delete one"),
    (f'{{"{LONG}":1,"{LONG}":2}}', "u8", "RepeatedMember", f"/{LONG}", "delete one"),
]


def text_of(modules: Any) -> bytes:
    return (modules if isinstance(modules, str) else json.dumps(modules)).encode()


def requested(modules: Any, *types: str) -> tuple[bytes, bytes]:
    """The words of a line: the modules, and a type on each line."""
    return text_of(modules), "\n".join(types).encode()


def made_by(driver: Driver, modules: Any, *types: str) -> tuple[bytes, list[str]]:
    """The registry's JSON, and the notes."""
    answer = driver.ask("registry_of_modules", *requested(modules, *types))
    expect(answer.status == "done" and answer.length == len(answer.output), f"{answer.status} {answer.fault}")
    registry, _, notes = answer.output.partition(b"\n")
    return registry, notes.decode().split("; ") if notes else []


def made_row(driver: Driver, made: Made) -> None:
    """The containers are those of the registry, and all types that were requested are among them."""
    registry, notes = made_by(driver, made.modules, *made.types)
    expect(notes == made.notes, f"the notes {notes}")
    containers = json.loads(registry)
    expect(bool(containers) == bool(made.types), f"{containers}")
    for name, container in made.containers.items():
        expect(containers.get(name) == container, f"{name} is {containers.get(name)}")


def refused_row(driver: Driver, modules: Any, kind: str, name: str) -> None:
    answer = driver.ask("registry_of_modules", *requested(modules, kind))
    expect(answer == Answer("refused", name, 0, 0, b""), f"{answer}")


def place_row(driver: Driver, modules: Any, kind: str, place: str, words: str) -> None:
    where = kind if place == ARGUMENT else place
    told = place_told(driver, "modules_place", *requested(modules, kind), where=where)
    expect(told is not None and told.where == where, f"{told}")
    expect(told is not None and words in told.wanted and told.wanted.isascii(), f"{told}")


def no_place_row(driver: Driver, modules: Any, kind: str) -> None:
    told = place_told(driver, "modules_place", *requested(modules, kind))
    expect(told is None, f"{told}")


def values_row(driver: Driver, modules: Any, types: list[str], name: str) -> None:
    """Bytes of random values, some of them spoiled, are decoded as without a registry."""
    registry, _ = made_by(driver, modules, *types)
    own, kind, rng = independent.modules_of(modules), independent.parsed(name), random.Random(name)
    question = Question(driver, registry, format_of(name), [])
    for number in range(INPUTS):
        data = independent.random_bytes(rng, own, kind)
        data = independent.spoiled(rng, data) if number % 3 == 2 else data
        try:
            answer = question.ask("from_bcs", data)
        except Refused as fault:
            expect(False, f"the registry is refused: {fault}")
        try:
            value = independent.Reader(own, data).whole(kind)
        except ValueError:
            expect(answer.status == "refused", f"{data.hex()} isn't refused")
            continue
        expect(answer.status == "done" and json.loads(answer.output) == value, f"{data.hex()}: {answer}")


def all_rows(driver: Driver) -> Iterator[tuple[str, str, Callable[[], None]]]:
    for made in MADE:
        yield "modules", f"registries of modules: {made.types}", partial(made_row, driver, made)
    for modules, kind, name, place, words in [*REFUSED, *ODD]:
        # (a line can't have this type: each language tests it)
        if kind:
            row = f"registries of modules: {name} of {kind} at {place}"
            yield "modules", row, partial(refused_row, driver, modules, kind, name)
            yield "modules places", row, partial(place_row, driver, modules, kind, place, words)
    yield "modules places", "registries of modules: no refusal", partial(no_place_row, driver, FINE, "0x1::m::S")
    for count in (8, 12):
        kind = f"0x1::m::A<{', '.join(GROWING[:count])}>"
        row = f"registries of modules: {count} parameters"
        yield "modules", row, partial(refused_row, driver, swapped(count, "A"), kind, "TooLarge")
    for samples, types in RANDOM_TYPES:
        for name in types:
            yield "modules", f"values of {name}", partial(values_row, driver, samples, types, name)


def rows_of_modules(driver: Driver) -> Iterator[tuple[str, str, Callable[[], str]]]:
    """The kind and the name of each row, and what asks it: it answers nothing."""

    def asks(asked: Callable[[], None]) -> Callable[[], str]:
        def ask() -> str:
            asked()
            return ""

        return ask

    for kind, name, asked in all_rows(driver):
        yield kind, name, asks(asked)
