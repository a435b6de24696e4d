"""Compares the JSON that the schemas of `bcs schema` accept with what `bcs encode` accepts.

    schema.py PROGRAM COUNT SEED

tests/schema.sh runs this. First it tries all integers at which some rule changes, in all spellings, and hexadecimal for
a few bytes. Then it tries COUNT random documents, for random registries and formats: values in all spellings, and the
same with one or two changes. `bcs encode` and the validator check each document. docs/JSON.md says which rules a
schema can't express: a document that breaks one of these may pass the validator, if the refusal has the name of such a
rule. Each schema is also checked against the schema of schemas.
"""

import json
import subprocess
import sys
from collections import Counter
from collections.abc import Iterator
from random import Random
from typing import Any, NamedTuple, NoReturn

from harness import arguments, fail
from jsonschema import Draft202012Validator, RefResolutionError, SchemaError

# What the schema has to refuse.
SAID = {"BadShape", "BadNumber", "BadHex", "MissingField", "UnknownField", "UnknownVariant", "Unsupported"}
# What it has to take, since it can't say it: these are judged last, of a text that has the shape.
UNSAID_LAST = {"TooManyNodes", "RepeatedKey"}
# What it can't say, and is judged before the shape, so that the schema may do either.
UNSAID_FIRST = {"NotJson", "TooNested", "TooDeep"}

TEXTS_OF_ONE = 50

WIDTHS = (8, 16, 32, 64, 128)
UNSIGNED = {f"U{bits}": (0, 2**bits - 1) for bits in WIDTHS}
NUMBERS = UNSIGNED | {f"I{bits}": (-(2 ** (bits - 1)), 2 ** (bits - 1) - 1) for bits in WIDTHS}
# Numbers at which some rule turns, and those beside them.
LIMITS = {limit + step for pair in NUMBERS.values() for limit in pair for step in (-1, 0, 1)}
BOUNDS = sorted(LIMITS | {9, 10, 99, 100, 199, 200, 10**19, 10**38})
FEW_WORDS = ["UNIT", "BOOL", "STR", "BYTES"]
NO_VALUES = ["F32", "F64", "CHAR"]

# The validator drops a slash at the end of a reference, so no container has an empty name here. It takes members of an
# object that are called `$id` or `id` for its own where it looks for references, so no field is called so.
NAMES = [
    "A",
    "B",
    "Tree",
    "U8",
    "I128",
    "a/b",
    "a~1b",
    "~",
    "50%",
    "%2F",
    "x y",
    "é",
    "名😀",
    '"q"',
    "#",
    "?a=b&c",
    "c\\d",
]
NAMES += ["{[<|^`>]}", "\n", ".", "$defs", "0"]
MEMBERS = ["a", "b", "some", "", "é", "x/y", "~", "$ref", "type", "0", "\n", "items"]


class Raw(str):
    """A token that stands in the text as it is."""


class Pairs(list[Any]):
    """An object by its members, so that a name may come twice."""


def written(value: Any) -> str:
    if isinstance(value, Raw):
        return value
    if isinstance(value, Pairs):
        return "{" + ",".join(f"{json.dumps(name)}:{written(part)}" for name, part in value) + "}"
    if isinstance(value, list):
        return "[" + ",".join(map(written, value)) + "]"
    return json.dumps(value)


def spellings(number: int) -> list[Any]:
    """How a whole number may be written, and how it may not."""
    tokens = [Raw(number), Raw(f"{number}.0"), Raw(f"{number}.5"), Raw(f"{number}e0"), Raw(f"{number}E1")]
    changed = f"{number}"[:-1] + chr(ord("٠") + abs(number) % 10)
    fronts, ends = ("", "0", "+", "-", " "), ("", "0", "\n", " ", ".0", "e0")
    return [*tokens, *(f"{front}{number}{end}" for front in fronts for end in ends), changed]


class Maker:
    """Registries, formats and values."""

    def __init__(self, random: Random) -> None:
        self.random = random
        self.left = 0
        self.names = random.sample(NAMES, random.randint(1, 6))
        self.registry = {name: self.container() for name in self.names}

    def word(self) -> str:
        kinds = [list(NUMBERS), FEW_WORDS, NO_VALUES]
        return self.random.choice(self.random.choices(kinds, [10, 10, 1])[0])

    def format(self, levels: int = 3) -> Any:
        with_parts = ["OPTION", "SEQ", "MAP", "TUPLE", "TUPLEARRAY"] if levels > 0 else []
        kind = self.random.choice(["word"] * 5 + ["TYPENAME"] * 3 + with_parts)
        if kind == "word":
            return self.word()
        if kind == "TYPENAME":
            return {kind: self.random.choice(self.names)}
        if kind == "MAP":
            return {kind: {"KEY": self.format(levels - 1), "VALUE": self.format(levels - 1)}}
        if kind == "TUPLE":
            return {kind: self.formats(levels - 1)}
        inner = self.random.choice(["U8", self.format(levels - 1)])
        if kind == "TUPLEARRAY":
            size = self.random.choice([0, 1, 2, 3, 3, 20, 2**32, 2**63, 2**64 - 1])
            return {kind: {"CONTENT": inner, "SIZE": size}}
        return {kind: inner}

    def formats(self, levels: int = 2) -> list[Any]:
        return [self.format(levels) for _ in range(self.random.choice([0, 1, 2, 2, 3]))]

    def fields(self) -> list[Any]:
        return [{name: self.format(2)} for name in self.random.sample(MEMBERS, self.random.choice([0, 1, 2, 2, 3]))]

    def payload(self) -> Any:
        kind = self.random.choice(["UNIT", "NEWTYPE", "TUPLE", "STRUCT"])
        return kind if kind == "UNIT" else {kind: self.content(kind)}

    def content(self, kind: str) -> Any:
        if kind.startswith("NEWTYPE"):
            return self.format(2)
        return self.formats() if kind.startswith("TUPLE") else self.fields()

    def container(self) -> Any:
        kind = self.random.choice(["UNITSTRUCT", "TUPLESTRUCT", *["NEWTYPESTRUCT", "STRUCT", "ENUM"] * 2])
        if kind == "UNITSTRUCT":
            return kind
        if kind == "ENUM":
            variants = self.random.sample(NAMES + MEMBERS, self.random.choice([0, 1, 2, 3, 4]))
            numbers = self.random.sample(range(300), len(variants))
            return {
                kind: {str(number): {name: self.payload()} for number, name in zip(numbers, dict.fromkeys(variants))}
            }
        return {kind: self.content(kind)}

    def whole_value(self, format: Any) -> Any:
        self.left = 100
        return self.value(format, 8)

    def value(self, format: Any, levels: int) -> Any:
        """A value, or nearly: it is null where it would become too deep or too large, and a long array is cut."""
        self.left -= 1
        if self.left < 0:
            return None
        if isinstance(format, str):
            return self.plain(format)
        ((kind, of),) = format.items()
        if levels <= 0 and kind in ("TYPENAME", "OPTION"):
            return None
        if kind == "TYPENAME":
            return self.contained(self.registry[of], levels - 1)
        if kind == "OPTION":
            return None if self.random.random() < 0.3 else Pairs([("some", self.value(of, levels - 1))])
        if kind == "TUPLE":
            return [self.value(part, levels - 1) for part in of]
        if kind == "MAP":
            return [
                [self.value(of["KEY"], levels - 2), self.value(of["VALUE"], levels - 2)] for _ in self.count(levels)
            ]
        if kind == "TUPLEARRAY":
            return self.listed(of["CONTENT"], range(min(of["SIZE"], 20)), levels)
        return self.listed(of, self.count(levels), levels)

    def count(self, levels: int) -> range:
        return range(self.random.choice([0, 1, 1, 2, 3]) if levels > 0 else 0)

    def listed(self, element: Any, count: range, levels: int) -> Any:
        if element == "U8" and self.random.random() < 0.5:
            return self.digits(len(count))
        return [self.value(element, levels - 1) for _ in count]

    def digits(self, count: int) -> str:
        digits = self.random.randbytes(count).hex()
        return self.random.choice([digits, digits.upper()])

    def plain(self, word: str) -> Any:
        if word in NUMBERS:
            low, high = NUMBERS[word]
            near = [bound for bound in BOUNDS if low <= bound <= high]
            number = self.random.choice([*near, self.random.randint(low, high)])
            return number if self.random.random() < 0.5 and -(2**63) <= number < 2**64 else str(number)
        some = {"UNIT": None, "BOOL": self.random.random() < 0.5, "STR": self.random.choice(["", "é\n", "7", "null"])}
        return some[word] if word in some else self.digits(self.random.randint(0, 3))

    def contained(self, container: Any, levels: int) -> Any:
        if isinstance(container, str):
            return None
        ((kind, of),) = container.items()
        if kind == "ENUM":
            return self.variant(of, levels) if of else None
        if kind.startswith("NEWTYPE"):
            return self.value(of, levels)
        if kind.startswith("TUPLE"):
            return [self.value(part, levels) for part in of]
        named = [next(iter(field.items())) for field in of]
        return Pairs(self.random.sample([(name, self.value(part, levels)) for name, part in named], len(named)))

    def variant(self, variants: Any, levels: int) -> Any:
        ((name, payload),) = self.random.choice(list(variants.values())).items()
        if payload == "UNIT" and self.random.random() < 0.5:
            return name
        return Pairs([(name, self.contained(payload, levels))])


class Changer:
    """Changes one thing in a value."""

    def __init__(self, random: Random) -> None:
        self.random = random

    def changed(self, value: Any) -> Any:
        """The value with a change at one of its parts, or at itself."""
        parts = len(value) if isinstance(value, list) else 0
        if parts and self.random.random() < 0.75:
            place = self.random.randrange(parts)
            changed = type(value)(value)
            if isinstance(value, Pairs):
                name, part = value[place]
                changed[place] = (name, self.changed(part))
            else:
                changed[place] = self.changed(value[place])
            return changed
        if isinstance(value, Pairs) and self.random.random() < 0.8:
            return self.members_changed(value)
        if isinstance(value, list) and self.random.random() < 0.8:
            return self.items_changed(value)
        if isinstance(value, str) and self.random.random() < 0.8:
            return self.text_changed(value)
        return self.another()

    def members_changed(self, members: Pairs) -> Pairs:
        kept = Pairs(members)
        if kept and self.random.random() < 0.5:
            name, part = kept.pop(self.random.randrange(len(kept)))
            if self.random.random() < 0.5:
                kept.append((self.random.choice([*MEMBERS, *NAMES, name + " ", name + "\n"]), part))
            return kept
        name = self.random.choice([*MEMBERS, *(name for name, _part in members)])
        kept.insert(self.random.randint(0, len(kept)), (name, self.another()))
        return kept

    def items_changed(self, items: list[Any]) -> list[Any]:
        kept = list(items)
        if kept and self.random.random() < 0.4:
            kept.pop(self.random.randrange(len(kept)))
        elif kept and self.random.random() < 0.6:
            kept.insert(self.random.randint(0, len(kept)), self.random.choice(kept))
        else:
            kept.append(self.another())
        return kept

    def text_changed(self, text: str) -> Any:
        place = self.random.randint(0, len(text))
        sign = self.random.choice([*"019aFg-+ \n\r\u2028\u0000.٣３é"])
        changed = [text[:place] + sign + text[place:], text[:place] + text[place + 1 :], text + "\n", text + sign]
        return self.random.choice([*changed, sign + text, "0" + text, "-" + text, Pairs([(text, None)])])

    def another(self) -> Any:
        numbers = spellings(self.random.choice(BOUNDS))
        odd = [*map(Raw, ("-0", "1.5", "1e400", "01", "NaN", '"\\ud800"')), "-0", "", "0", "١", "0x00", "0g", "00\n"]
        pairs = [Pairs([("some", None)]), Pairs([("", 0)])]
        kinds: list[Any] = [None, True, False, 0, "", "null", [], Pairs(), [None], [[]], *pairs]
        names = [self.random.choice(NAMES), Pairs([(self.random.choice(NAMES), None)])]
        return self.random.choice(
            self.random.choices([numbers, odd, kinds, names, [self.deep()]], [8, 4, 4, 2, 0.1])[0]
        )

    def deep(self) -> Any:
        value: Any = None
        for _ in range(self.random.choice([99, 100, 101, 127, 128])):
            value = self.random.choice([[value], Pairs([("some", value)])])
        return value


class Asked(NamedTuple):
    registry: str
    format: str
    options: list[str]
    texts: list[str]


def fail_at(asked: Asked, what: str) -> NoReturn:
    fail(f"{what}\nat the registry {asked.registry}\nand the format {asked.format} {asked.options}")


def run(program: str, *words: str, given: str = "") -> str:
    answer = subprocess.run(
        [program, *words], input=given, capture_output=True, text=True, encoding="utf-8", check=False
    )
    if answer.returncode not in (0, 2):
        fail(f"bcs {words}: status {answer.returncode}: {answer.stderr[-500:]}")
    return answer.stdout


def held(token: str) -> int | float:
    """A whole number, if `serde_json` holds it so, and else one that is none."""
    number = int(token)
    return number if token != "-0" and -(2**63) <= number < 2**64 else 0.5


def readings(text: str) -> tuple[Any, Any]:
    """The text as `serde_json` holds it, and as Python does, for which 1.0 is a whole number, and so -0."""
    return json.loads(text, parse_int=held, parse_float=lambda _: 0.5), json.loads(text)


def is_named_float(text: str) -> bool:
    """Whether a whole number is written with a point or an exponent, or as -0."""
    tokens: list[str] = []
    json.loads(text, parse_float=tokens.append, parse_int=tokens.append)
    return any(token == "-0" or (not token.lstrip("-").isdecimal() and float(token).is_integer()) for token in tokens)


def judge(asked: Asked, validator: Any, text: str, answer: str) -> str:
    verdict = answer.removeprefix("refused: ") if answer.startswith("refused: ") else "taken"
    if verdict in UNSAID_FIRST:
        return verdict
    if verdict not in SAID | UNSAID_LAST | {"taken"}:
        fail_at(asked, f"the text {text} is answered {answer}")
    exact, plain = readings(text)
    wanted = verdict not in SAID
    if validator.is_valid(exact) != wanted:
        fail_at(asked, f"the text {text} is {verdict}, and the schema {'takes' if not wanted else 'refuses'} it")
    if validator.is_valid(plain) != wanted and not (verdict == "BadNumber" and is_named_float(text)):
        fail_at(asked, f"the text {text} is {verdict}, and the schema differs by more than a float")
    return verdict


def judge_all(program: str, asked: Asked) -> Iterator[str]:
    words = [asked.registry, asked.format]
    lines = "".join(f"{text}\n" for text in asked.texts)
    answers = run(program, "encode", "--quiet", "--lines", *asked.options, *words, given=lines).splitlines()
    schema = json.loads(run(program, "schema", *words))
    try:
        Draft202012Validator.check_schema(schema)
        validator = Draft202012Validator(schema)
        for text, answer in zip(asked.texts, answers, strict=True):
            yield judge(asked, validator, text, answer)
    except (SchemaError, RefResolutionError) as error:
        fail_at(asked, f"the schema is none: {error.args[0]}")


def digits_changed(number: int) -> Iterator[str]:
    """The number's digits with one of them greater or lower by 1."""
    digits = str(number)
    for place, digit in enumerate(digits):
        for other in (ord(digit) - 1, ord(digit) + 1):
            yield digits[:place] + chr(other) + digits[place + 1 :]


def fixed_ones() -> Iterator[Asked]:
    for word, limits in NUMBERS.items():
        texts = [written(spelled) for number in BOUNDS for spelled in spellings(number)]
        texts += [written(digits) for number in limits for digits in digits_changed(number)]
        yield Asked("{}", json.dumps(word), [], [*texts, "-0", '"-0"', '""', "null", "true", "[]", "{}"])
    digits = "0aF9e0aF9e"
    fronts, ends = ("", "g", "0x", "é"), ("", "\n", " ", "٣")
    texts = [json.dumps(front + digits[:count] + end) for count in range(10) for front in fronts for end in ends]
    arrays = [json.dumps([0] * count) for count in range(6)]
    lists = [{"TUPLEARRAY": {"CONTENT": element, "SIZE": size}} for element in ("U8", "I8") for size in range(5)]
    for format in ["BYTES", {"SEQ": "U8"}, {"SEQ": "I8"}, *lists]:
        yield Asked("{}", json.dumps(format), [], [*texts, *arrays, "null", "7", "{}", "[256]", '["255",0]'])


def random_ones(random: Random, count: int) -> Asked:
    maker, changer = Maker(random), Changer(random)
    format = maker.format() if random.random() < 0.3 else {"TYPENAME": random.choice(maker.names)}
    no_options: list[str] = []
    options = random.choice([no_options] * 6 + [["--depth", "3"], ["--nodes", "9"]])
    texts = []
    for _ in range(count):
        value = maker.whole_value(format)
        for _change in range(random.choice([0, 1, 1, 1, 2])):
            value = changer.changed(value)
        texts.append(written(value))
    return Asked(json.dumps(maker.registry), json.dumps(format), options, texts)


def main(program: str, count: int, seed: int) -> None:
    sys.setrecursionlimit(20_000)
    random = Random(seed)
    verdicts: Counter[str] = Counter()
    for asked in fixed_ones():
        verdicts.update(judge_all(program, asked))
    for begin in range(0, count, TEXTS_OF_ONE):
        verdicts.update(judge_all(program, random_ones(random, min(count - begin, TEXTS_OF_ONE))))
    missing = (SAID | UNSAID_LAST | UNSAID_FIRST | {"taken"}) - set(verdicts)
    if missing and count >= 5000:
        fail(f"no text is {', '.join(sorted(missing))}")
    told = ", ".join(f"{verdict} {many}" for verdict, many in verdicts.most_common())
    print(f"schema: {verdicts.total()} texts, as the schemas say: {told}")


if __name__ == "__main__":
    args = arguments(__doc__, "program", count=5000, seed=1)
    main(args.program, args.count, args.seed)
