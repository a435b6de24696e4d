"""Rows `encode`: a value in words becomes the JSON that spells it, which a call takes."""

import json
from typing import Any

from driver import Driver, Question, expect
from words import Unsayable

# A word, and what stands in it or the values that it takes.
Tree = tuple[str, Any]
NUMBERS = {"U": "u", "I": "i"}


def encode_row(driver: Driver, registry: bytes, words: list[str], wanted: str) -> str:
    """The bytes are those of the value's JSON, and are decoded to it.

    JSON nests at most 100 deep, so some values have none.
    """
    if wanted in ("NotOfFormat", "Unsupported"):
        raise Unsayable
    question = Question(driver, registry, words[0].encode(), words[2:])
    try:
        text = json.dumps(Spelling(json.loads(registry)).json_of(tree_of(words[1]), json.loads(words[0])))
    except RecursionError:
        raise Unsayable from None
    answer = question.ask("to_bcs", text.encode())
    if answer.status == "refused":
        if answer.fault in ("NotJson", "TooNested"):
            raise Unsayable
        return answer.fault
    shown = question.ask("from_bcs", answer.output)
    expect(question.ask("to_bcs", shown.output) == answer, "to_bcs of the text of the bytes")
    return "0x" + answer.output.hex()


def tree_of(words: str) -> Tree:
    """The last of the values that the words make one after another."""
    values: list[Tree] = []

    def taken(count: int) -> list[Tree]:
        parts = values[len(values) - count :]
        del values[len(values) - count :]
        return parts

    for word in words.split():
        kind, _, behind = word.partition(":")
        if kind in ("some", "named", "variant"):
            values.append((word, taken(1)[0]))
        elif kind == "list":
            values.append((kind, taken(int(behind))))
        elif kind == "map":
            parts = taken(2 * int(behind))
            values.append((kind, list(zip(parts[::2], parts[1::2]))))
        else:
            values.append((kind, behind))
    return values[-1]


def parts_of(tree: Tree, kind: str) -> Any:
    if tree[0] != kind:
        raise Unsayable
    return tree[1]


class Spelling:
    """How values are written as JSON by the formats of a registry."""

    def __init__(self, registry: dict[str, Any]) -> None:
        self.registry = registry

    def json_of(self, tree: Tree, format: Any) -> Any:
        if isinstance(format, str):
            return self.json_of_leaf(tree, format)
        [(word, of)] = format.items()
        if word == "TYPENAME":
            return self.json_of_container(parts_of(tree, "named"), self.registry[of])
        if word == "OPTION":
            return None if tree[0] == "none" else {"some": self.json_of(parts_of(tree, "some"), of)}
        if word == "MAP":
            entries = parts_of(tree, "map")
            return [[self.json_of(key, of["KEY"]), self.json_of(value, of["VALUE"])] for key, value in entries]
        if word == "TUPLE":
            return self.json_of_row(tree, of)
        part = of if word == "SEQ" else of["CONTENT"]
        return [self.json_of(element, part) for element in parts_of(tree, "list")]

    def json_of_leaf(self, tree: Tree, word: str) -> Any:
        if word == "UNIT":
            return parts_of(tree, "unit") or None
        if word == "BOOL" and tree[0] in ("true", "false"):
            return tree[0] == "true"
        return parts_of(tree, {"STR": "text", "BYTES": "bytes"}.get(word) or NUMBERS[word[0]])

    def json_of_row(self, tree: Tree, formats: list[Any]) -> list[Any]:
        return [self.json_of(part, format) for part, format in zip(parts_of(tree, "list"), formats, strict=True)]

    def json_of_fields(self, tree: Tree, fields: list[dict[str, Any]]) -> dict[str, Any]:
        names = [name for field in fields for name in field]
        return dict(zip(names, self.json_of_row(tree, [format for field in fields for format in field.values()])))

    def json_of_container(self, tree: Tree, container: Any) -> Any:
        if isinstance(container, str):
            return self.json_of_leaf(tree, "UNIT")
        [(word, of)] = container.items()
        if word != "ENUM":
            return self.json_of_content(tree, word.removesuffix("STRUCT") or word, of)
        number = tree[0].removeprefix("variant:")
        [(name, payload)] = of[number].items()
        if payload == "UNIT":
            return name
        [(kind, inside)] = payload.items()
        return {name: self.json_of_content(tree[1], kind, inside)}

    def json_of_content(self, tree: Tree, word: str, of: Any) -> Any:
        """What a struct or a variant holds: NEWTYPE, TUPLE, or fields."""
        if word == "NEWTYPE":
            return self.json_of(tree, of)
        return self.json_of_row(tree, of) if word == "TUPLE" else self.json_of_fields(tree, of)
