#!/usr/bin/env python3
"""tests/paths.py VALUES: whether `bcs explain` is right about each piece, and about each stop.

It asks the `bcs` of the variable PATH about every piece of each example that is a value, and of VALUES random values of
a registry with all formats. They are the same in each run, and the first 1,000 have every kind of stop:

- The pieces are all of the bytes, without gap or overlap.
- The word PATH of a piece leads `bcs part` to the part that the piece is of. `explain` cuts a key of more than 32
  bytes there, so the word is completed first, from the bytes of the key's own pieces.
- So do the name of the piece, behind `--name`, and the JSON Pointer of the part, behind `--pointer`. A name into a key
  leads nowhere.
- The pieces of a part are those that its format has, with the values that `bcs decode` prints of that part.

Then it damages encodings: it cuts them off, changes their bytes, or lowers the limits. `explain` has to stop where
`scan` and `decode` do, for the same reason, and the pieces before the stop have to be those of the undamaged value, up
to the damage. The last line says how many pieces and stops were checked.
"""

import json
import pathlib
import re
import subprocess
import sys
from collections import defaultdict
from collections.abc import Callable, Iterator, Sequence
from concurrent.futures import ThreadPoolExecutor
from functools import partial
from random import Random
from typing import Any, NamedTuple

from harness import arguments

EXAMPLES = pathlib.Path(__file__).resolve().parent.parent / "examples"
VALUES = {
    "aptos_transfer": ("aptos_registry", "RawTransaction"),
    "aptos_two_of_three": ("aptos_registry", "SignedTransaction"),
    "sui_stake": ("sui_registry", "TransactionData"),
    "sui_transfer": ("sui_registry", "TransactionData"),
}
COUNT = int(arguments(__doc__, "values").values)
# How deep values nest, how many words are asked of all values at once, and how many stops for each reason.
LEVELS = 3
SAMPLE = 100
STOPS = 100
# What replaces a byte. Among these are numbers in a long form, and numbers and lengths that are too large.
DAMAGES = [b"", b"\0", b"\1", b"\2", b"\x80\0", b"\x80\x80\0", b"\xff", b"\xff\xff\xff\xff\x0f", b"\xff" * 6]
LIMITS: list[list[str]] = [["--depth", "2"], ["--nodes", "9"]]
REASONS = [
    *["BadBool", "BadOption", "BadUtf8", "EndOfInput", "KeyOrder", "KeyRepeated", "LengthTooLarge", "LongForm"],
    *["NumberTooLarge", "TooDeep", "TooManyNodes", "TrailingBytes", "UnknownVariant", "Unsupported"],
]
PAIRS = [[0, 0], [0, 1], [7, 255]]
TEXTS = ["", "a", "é\n"]
# With its length each key has a byte more: 32 are printed whole. In PATH, the last two are cut to the same text.
KEYS = [*TEXTS, "k" * 31, "k" * 32, "k" * 33, "k" * 99 + "a", "k" * 99 + "b"]
# A key in a word PATH.
KEY = re.compile(r"key:([0-9a-f]*)(?:\.\.\.\(([0-9]+) bytes? more\))?")
# A step of a name: to a field, a variant, an element, a key, the value at a short key, that at a long one, or what an
# option holds.
LABEL = r'"(?:[^"\\]|\\.)*"|[A-Za-z0-9_]+'
STEP = re.compile(
    rf"\.(?P<field>{LABEL})|::(?P<variant>{LABEL})|\[(?P<number>\d+)\]"
    r"|\[key (?P<key>\d+)\]|\[key:(?P<digits>[0-9a-f]*)\]|\[value (?P<value>\d+)\]|\?"
)
# The number of digits of the longest key in a name.
SHORT = 64

ANY: dict[str, Any] = {"TYPENAME": "Any"}
NUMBERS = [f"{sign}{bits}" for sign in "UI" for bits in (8, 16, 32, 64, 128)]
PAYLOADS: dict[str, Any] = {
    "Float": {"NEWTYPE": "F32"},
    **{number: {"NEWTYPE": number} for number in NUMBERS},
    "Nothing": "UNIT",
    "Truth": {"NEWTYPE": "BOOL"},
    "Text": {"NEWTYPE": "STR"},
    "Digits": {"NEWTYPE": "BYTES"},
    "Unit": {"NEWTYPE": "UNIT"},
    "Maybe": {"NEWTYPE": {"OPTION": ANY}},
    "List": {"NEWTYPE": {"SEQ": ANY}},
    "Octets": {"NEWTYPE": {"SEQ": "U8"}},
    "a::b": {"TUPLE": [ANY, ANY]},
    "Row": {"NEWTYPE": {"TUPLE": [ANY, {"TUPLE": []}, ANY]}},
    "Three": {"NEWTYPE": {"TUPLEARRAY": {"CONTENT": "U8", "SIZE": 3}}},
    "Twice": {"NEWTYPE": {"TUPLEARRAY": {"CONTENT": ANY, "SIZE": 2}}},
    "ByText": {"NEWTYPE": {"MAP": {"KEY": "STR", "VALUE": ANY}}},
    "ByPair": {"NEWTYPE": {"MAP": {"KEY": {"TUPLE": ["U8", {"TYPENAME": "Wrapped"}]}, "VALUE": ANY}}},
    "Fields": {"STRUCT": [{"a": ANY}, {'a.é"~/': {"OPTION": "BOOL"}}]},
    "Wrap": {"NEWTYPE": {"TYPENAME": "Wrapped"}},
    "Tuple": {"NEWTYPE": {"TYPENAME": "Tupled"}},
    "Struct": {"NEWTYPE": {"TYPENAME": "Point"}},
    "Empty": {"NEWTYPE": {"TYPENAME": "Empty"}},
}
REGISTRY = {
    "Any": {"ENUM": {str(number * 9): {name: payload} for number, (name, payload) in enumerate(PAYLOADS.items())}},
    "Empty": "UNITSTRUCT",
    "Point": {"STRUCT": [{"x": ANY}, {"y": "I8"}]},
    "Tupled": {"TUPLESTRUCT": ["BOOL", ANY]},
    "Wrapped": {"NEWTYPESTRUCT": "U8"},
}


class Piece(NamedTuple):
    place: int
    digits: str
    name: str
    path: str | None
    kind: str
    what: str
    value: Any
    pointer: str = ""


class Part(NamedTuple):
    """A part that has pieces of its own, with these pieces and all of its digits. A part of a key has no word PATH."""

    path: str | None
    name: str
    pieces: list[Piece]
    digits: str
    pointer: str


class Damage(NamedTuple):
    """The digits of a value, its damaged digits, the byte at which the damage begins, and the limits for these."""

    value: str
    damaged: str
    place: int
    limits: list[str]


def bcs(*words: str, given: str = "", statuses: tuple[int, ...] = (0, 1)) -> str:
    asked = subprocess.run(["bcs", *words], input=given, capture_output=True, text=True, encoding="utf-8", check=False)
    if asked.returncode not in statuses:
        sys.exit(f"paths: FAILED: bcs {' '.join(words)[:300]}: {asked.stdout[-300:]}{asked.stderr[-300:]}")
    return asked.stdout


def expect(holds: bool, what: str) -> None:
    if not holds:
        sys.exit(f"paths: FAILED: {what}")


def explained(
    registry: str, format: str, digits: str, *limits: str, status: int = 0
) -> tuple[list[Piece], dict[str, Any]]:
    """The pieces and the last line. The pieces have to be a prefix of the bytes, without gap or overlap."""
    lines = bcs("explain", "--json", *limits, registry, format, given=digits, statuses=(status,)).split("\n")
    *rows, last = map(json.loads, lines[:-1])
    expect(not any("refused" in row for row in rows), "a line after the stop")
    pieces = [Piece(*map(row.pop, ["place", "bytes", "name", "path", "kind", "what", "value"])) for row in rows]
    end = 0
    for piece in pieces:
        expect(piece.place == end and piece.digits != "", f"a gap or an overlap at {piece.place}")
        end += len(piece.digits) // 2
    expect(
        digits.startswith("".join(piece.digits for piece in pieces)), f"the pieces aren't the bytes of {digits[:300]}"
    )
    return pieces, last


def pieces_of(registry: str, format: str, digits: str) -> list[Piece]:
    """The pieces of a value. The lines of --paths have the same words."""
    pieces, last = explained(registry, format, digits)
    expect(sum(len(piece.digits) for piece in pieces) == len(digits), "the pieces aren't all of the bytes")
    expect(last == {"end": len(digits) // 2}, f"the end: {last}")
    rows = bcs("explain", "--paths", registry, format, given=digits).splitlines()
    words = [row.rsplit("  ", 1)[1] for row in rows if not re.fullmatch(" *[0-9]+  [0-9a-f]+", row)]
    expect(words == [piece.path or "-" for piece in pieces], "--paths and --json have different words")
    return list(with_whole_keys(pieces))


def with_whole_keys(pieces: list[Piece]) -> Iterator[Piece]:
    """The pieces with whole keys in words. The pieces of a key come right before those of the value at it."""
    keys: dict[str, tuple[str, str]] = {}
    for piece in pieces:
        name, pointer, wholes = "", "", []
        for step in STEP.finditer(piece.name):
            number, key = keys.get(name, ("", ""))
            if step["key"]:
                keys[name] = (step["key"], piece.digits if number != step["key"] else key + piece.digits)
                pointer += f"/{step['key']}/0"
            elif step["digits"] is not None or step["value"]:
                is_right = step["digits"] == key if len(key) <= SHORT else step["value"] == number
                expect(is_right, f"{piece.name} has the step {step[0]} to entry {number} with the key {key}")
                pointer += f"/{number}/1"
                wholes.append(key)
            else:
                pointer += pointer_step(step)
            name += step[0]
        expect((name or ".") == piece.name, f"{piece.name} isn't a name")
        path = piece.path
        if path is not None:
            rest = iter(wholes)
            path = KEY.sub(lambda step: whole_key(next(rest), step), path)
            expect(next(rest, None) is None, f"{piece.path} has fewer keys than {piece.name}")
        yield piece._replace(path=path, pointer=pointer)


def pointer_step(step: re.Match[str]) -> str:
    label = step["field"] or step["variant"]
    name = named(label).replace("~", "~0").replace("/", "~1") if label else step["number"] or "some"
    return f"/{name}"


def named(label: str) -> str:
    """The name that is printed as this label."""
    return str(json.loads(label)) if label.startswith('"') else label


def whole_key(key: str, step: re.Match[str]) -> str:
    left_out = len(key) // 2 - 32
    expect(step[1] == key[:SHORT] and int(step[2] or 0) == max(left_out, 0), f"{step[0]} is printed for the key {key}")
    return f"key:{key}"


def is_within(piece: Piece, first: Piece) -> bool:
    """Whether the piece is of the part that the first piece begins. A key has no PATH, but a name."""
    if first.path == ".":
        return True
    if first.path is not None and piece.path is not None:
        return f"{piece.path}/".startswith(f"{first.path}/")
    stem = first.name.removesuffix(".")
    return piece.name == stem or (piece.name.startswith(stem) and piece.name[len(stem)] in ".[?:")


def parts_of(pieces: list[Piece]) -> Iterator[Part]:
    """A part that has pieces of its own begins with one, and the pieces of what is inside it follow in a row."""
    own = defaultdict(list)
    for piece in pieces:
        expect((piece.path is None) == ("[key " in piece.name), f"the PATH at {piece.name}")
        own[piece.path, piece.name].append(piece)
    for number, first in enumerate(pieces):
        if (first.path, first.name) in own:
            end = next((at for at in range(number, len(pieces)) if not is_within(pieces[at], first)), len(pieces))
            digits = "".join(piece.digits for piece in pieces[number:end])
            yield Part(first.path, first.name, own.pop((first.path, first.name)), digits, first.pointer)


# ---- what pieces mean


def without_newtypes(containers: dict[str, Any], format: Any) -> Any:
    """The format inside newtypes, which have no pieces of their own and no step in a name."""
    while isinstance(format, dict):
        [(kind, content)] = format.items()
        if kind == "TYPENAME" and "NEWTYPESTRUCT" in containers[content]:
            format = containers[content]["NEWTYPESTRUCT"]
        elif kind == "NEWTYPE":
            format = content
        else:
            break
    return format


def below(containers: dict[str, Any], format: dict[str, Any], step: re.Match[str]) -> Any:
    """The format, or the payload of a variant, to which a step of a name leads."""
    [(kind, content)] = format.items()
    if kind == "TYPENAME":
        [(kind, content)] = containers[content].items()
    match kind:
        case "STRUCT":
            field = named(step["field"])
            return next(member[field] for member in content if field in member)
        case "ENUM":
            variant = named(step["variant"])
            return next(choice[variant] for choice in content.values() if variant in choice)
        case "TUPLE" | "TUPLESTRUCT":
            return content[int(step["number"])]
        case "MAP":
            return content["KEY" if step["key"] else "VALUE"]
        case "TUPLEARRAY":
            return content["CONTENT"]
    return content


def format_at(containers: dict[str, Any], format: str, name: str) -> Any:
    """The format of the part with this name. The format of the whole value is an argument of the command line."""
    found = json.loads(format) if format[0] in '{"' else {"TYPENAME": format}
    found = without_newtypes(containers, found)
    for step in STEP.finditer(name):
        found = without_newtypes(containers, below(containers, found, step))
    return found


def own_pieces(containers: dict[str, Any], format: Any, value: Any) -> list[tuple[str, str, Any]]:
    """The pieces that a part with this format and this JSON has besides those of the parts inside it: the kind of each,
    what it is, and its value."""
    if format == "BOOL":
        return [("truth", format, value)]
    if format == "STR":
        return with_length(format, len(value.encode()), ("text", format, value))
    if format == "BYTES":
        return with_length(format, len(value) // 2, ("bytes", format, len(value) // 2))
    if isinstance(format, str):
        return [("signed" if format[0] == "I" else "unsigned", format, str(value))]
    [(kind, content)] = format.items()
    match kind:
        case "OPTION":
            return [("option", kind, value is not None)]
        case "SEQ" if content == "U8":
            return with_length(kind, len(value) // 2, ("octets", content, len(value) // 2))
        case "SEQ" | "MAP":
            return [("length", kind, len(value))]
        case "TUPLEARRAY":
            return [("octets", content["CONTENT"], len(value) // 2)]
    name = value if isinstance(value, str) else next(iter(value))
    number = next(number for number, choice in containers[content]["ENUM"].items() if name in choice)
    return [("variant", f"{content}::{name}", int(number))]


def with_length(format: str, size: int, piece: tuple[str, str, Any]) -> list[tuple[str, str, Any]]:
    """The length is always a piece. The bytes that it counts are another one, if there are any."""
    return [("length", format, size), piece][: 1 + (size > 0)]


def ask_values(registry: str, format: str, parts: list[Part]) -> None:
    """Compares the pieces with what `decode` prints of their parts, which is asked once for all parts of a format."""
    containers = json.loads(registry if registry[0] == "{" else pathlib.Path(registry).read_text(encoding="utf-8"))
    by_format = defaultdict(list)
    for part in parts:
        by_format[json.dumps(format_at(containers, format, part.name))].append(part)

    def ask(part_format: str, parts: list[Part]) -> None:
        given = "".join(f"{part.digits}\n" for part in parts)
        values = map(json.loads, bcs("decode", "--lines", registry, part_format, given=given).split("\n")[:-1])
        for part, value in zip(parts, values, strict=True):
            said = [(piece.kind, piece.what, piece.value) for piece in part.pieces]
            wanted = own_pieces(containers, json.loads(part_format), value)
            expect(said == wanted, f"the pieces of {part.name} are {said}, and not {wanted}")

    ask_together([partial(ask, *asked) for asked in by_format.items()])


# ---- where the words lead


def ask_together(questions: Sequence[Callable[[], None]]) -> None:
    with ThreadPoolExecutor(4) as pool:
        for asked in [pool.submit(question) for question in questions]:
            asked.result()


def ask(registry: str, format: str, way: tuple[str, ...], values: list[str], wanted: list[str]) -> None:
    """Asks for the part of each value at a way, which is PATH, or `--name` or `--pointer` with what comes behind it."""
    *option, word = way
    words = [f"{option[0]}={word}", registry, format] if option else [registry, format, word]
    told = bcs("part", "--lines", *words, given="\n".join(values)).split("\n")[:-1]
    for value, digits, answer in zip(values, wanted, told, strict=True):
        expect(answer == digits, f"{way} of {value[:300]}: {answer[:300]}, and not {digits[:300]}")


def ways_to(part: Part) -> Iterator[tuple[tuple[str, ...], str]]:
    """The ways to a part, with what is found there. No way leads to a key."""
    found = "none" if part.path is None else part.digits
    if part.path is not None:
        yield (part.path,), found
    yield ("--name", part.name), found
    yield ("--pointer", part.pointer), found


def ask_examples() -> int:
    asked = 0
    for name, (registry_name, format) in VALUES.items():
        registry = str(EXAMPLES / f"{registry_name}.json")
        digits = (EXAMPLES / f"{name}.hex").read_text(encoding="utf-8").strip()
        parts = list(parts_of(pieces_of(registry, format, digits)))
        ways = [way for part in parts for way in ways_to(part)]
        ask_together([partial(ask, registry, format, way, [digits], [found]) for way, found in ways])
        ask_values(registry, format, parts)
        asked += sum(len(part.pieces) for part in parts)
    return asked


# ---- random values


def some(random: Random, depth: int) -> Any:
    """A JSON value of `Any`, with so many levels below it at most."""
    names = list(LEAVES) if depth == 0 else [*LEAVES, *NODES, *NODES, *NODES]
    name = random.choice(names)
    if name in NUMBERS:
        bits = int(name[1:])
        least = -(2 ** (bits - 1)) if name[0] == "I" else 0
        return {name: str(random.choice([least, least + 2**bits - 1, random.randrange(least, least + 2**bits)]))}
    return {name: (LEAVES | NODES)[name](random, lambda: some(random, depth - 1))}


Inner = Callable[[], Any]
LEAVES: dict[str, Callable[[Random, Inner], Any]] = {
    **{number: lambda random, inner: None for number in NUMBERS},
    "Nothing": lambda random, inner: None,
    "Unit": lambda random, inner: None,
    "Empty": lambda random, inner: None,
    "Truth": lambda random, inner: random.random() < 0.5,
    "Text": lambda random, inner: random.choice(TEXTS) * random.randrange(3),
    "Digits": lambda random, inner: random.randbytes(random.randrange(40)).hex(),
    "Octets": lambda random, inner: random.randbytes(random.randrange(3)).hex(),
    "Three": lambda random, inner: random.randbytes(3).hex(),
    "Wrap": lambda random, inner: random.randrange(256),
}
NODES: dict[str, Callable[[Random, Inner], Any]] = {
    "Maybe": lambda random, inner: random.choice([None, {"some": inner()}]),
    "List": lambda random, inner: [inner() for _ in range(random.randrange(4))],
    "a::b": lambda random, inner: [inner(), inner()],
    "Row": lambda random, inner: [inner(), [], inner()],
    "Twice": lambda random, inner: [inner(), inner()],
    "ByText": lambda random, inner: [[key, inner()] for key in KEYS if random.random() < 0.4],
    "ByPair": lambda random, inner: [[key, inner()] for key in PAIRS if random.random() < 0.5],
    "Fields": lambda random, inner: {"a": inner(), 'a.é"~/': random.choice([None, {"some": True}])},
    "Tuple": lambda random, inner: [True, inner()],
    "Struct": lambda random, inner: {"x": inner(), "y": -1},
}


def uleb(number: int) -> str:
    return f"{number:02x}" if number < 128 else f"{number % 128 + 128:02x}{uleb(number // 128)}"


def random_values(random: Random) -> list[str]:
    texts = [json.dumps(some(random, LEVELS)) for _ in range(COUNT)]
    return bcs("encode", "--lines", json.dumps(REGISTRY), "Any", given="\n".join(texts)).split("\n")[:-1]


def within_element(way: tuple[str, ...]) -> tuple[int, tuple[str, ...]] | None:
    """The number of the element of the whole list that a way leads to, and the way from there."""
    *option, word = way
    if not (element := re.match(r"\[(\d+)\]|/?(\d+)(?:/(?!$)|$)", word)):
        return None
    rest = word[element.end() :]
    if option == ["--pointer"] and rest:
        rest = f"/{rest}"
    return int(element[1] or element[2]), (*option, rest or ("" if option == ["--pointer"] else "."))


def ask_random(random: Random, values: list[str]) -> int:
    """All values are the elements of one list, so that they are explained at once. The way behind an element's number
    is asked of the element alone, with all other elements that have it; and some whole ways are asked of the list."""
    registry, whole_format = json.dumps(REGISTRY), json.dumps({"SEQ": ANY})
    whole = uleb(COUNT) + "".join(values)
    parts = list(parts_of(pieces_of(registry, whole_format, whole)))
    ways = [way for part in parts for way in ways_to(part)]
    by_way = defaultdict(list)
    for way, found in ways:
        if inner := within_element(way):
            number, rest = inner
            by_way[rest].append((values[number], found))
    expect(any(f"key:64{b'k'.hex() * 99}62" in way[0] for way in by_way), "no PATH has a key that is cut")
    questions = [partial(ask, registry, "Any", way, *map(list, zip(*rows))) for way, rows in by_way.items()]
    for way, found in [*ways[:3], *random.sample(ways, SAMPLE)]:
        questions.append(partial(ask, registry, whole_format, way, [whole], [found]))
    ask_together(questions)
    ask_values(registry, whole_format, parts)
    return sum(len(part.pieces) for part in parts)


# ---- damage


def cut_off(random: Random, value: str) -> Damage:
    place = random.randrange(len(value) // 2)
    return Damage(value, value[: 2 * place], place, [])


def changed(random: Random, value: str) -> Damage:
    """Replaces a byte by others or by none, or appends bytes."""
    place = random.randrange(len(value) // 2 + 1)
    other = random.choice([random.randbytes(1), *DAMAGES]).hex()
    damaged = value[: 2 * place] + other + value[2 * place + 2 :]
    return Damage(value, damaged, place, [])


def refused(damages: list[Damage], limits: list[str]) -> Iterator[tuple[str, Damage]]:
    """The damaged values at which `scan` stops, with the line that it prints. `decode` has to print the same line."""
    given = "".join(f"{damage.damaged}\n" for damage in damages)
    words = ["--lines", *limits, json.dumps(REGISTRY), "Any"]
    scanned, decoded = (
        bcs(command, *words, given=given, statuses=(2,)).split("\n")[:-1] for command in ["scan", "decode"]
    )
    for damage, line, answer in zip(damages, scanned, decoded, strict=True):
        stops = line.startswith("refused: ")
        expect(line == answer if stops else not answer.startswith("refused: "), f"scan: {line}, decode: {answer}")
        if stops:
            yield line, damage


def ask_stop(line: str, damage: Damage) -> None:
    registry = json.dumps(REGISTRY)
    pieces, last = explained(registry, "Any", damage.damaged, *damage.limits, status=2)
    expect(line == f"refused: {last.get('refused')} at {last.get('place')}", f"{line} of {damage}, and not {last}")
    end = sum(len(piece.digits) for piece in pieces) // 2
    expect(end <= last["place"] or last["refused"] in ("KeyOrder", "KeyRepeated"), f"pieces after the stop of {damage}")
    wholes, _ = explained(registry, "Any", damage.value)
    if damage.limits:
        expect(pieces == wholes[: len(pieces)], f"the pieces before the stop at {damage}")
        return
    before = [piece for piece in wholes if piece.place + len(piece.digits) // 2 <= damage.place]
    expect(pieces[: len(before)] == before, f"the pieces before the damage of {damage}")
    if damage.value.startswith(damage.damaged):
        # The bytes stop within the first piece that isn't complete.
        expect(pieces == before, f"the pieces before the end of {damage}")
        cut = wholes[len(before)]
        expect((last["name"], last["path"]) == (cut.name, cut.path), f"the field path to the stop of {damage}: {last}")


def ask_damaged(random: Random, values: list[str]) -> int:
    damages = [damage(random, value) for value in values for damage in (cut_off, changed)]
    by_reason = defaultdict(list)
    no_limits: list[str] = []
    for limits in [no_limits, *LIMITS]:
        given = [Damage(value, value, len(value) // 2, limits) for value in values] if limits else damages
        for line, damage in refused(given, limits):
            by_reason[line.split()[1]].append((line, damage))
    expect(sorted(by_reason) == REASONS, f"the reasons: {sorted(by_reason)}")
    chosen = [stop for stops in by_reason.values() for stop in random.sample(stops, min(STOPS, len(stops)))]
    ask_together([partial(ask_stop, *stop) for stop in chosen])
    return len(chosen)


random = Random(20261126)
values = random_values(random)
pieces = ask_examples() + ask_random(random, values)
print(f"paths: {pieces} pieces, {ask_damaged(random, values)} stops")
