"""Registries, formats and JSON of any size, for sizes.py."""

from __future__ import annotations


def nested(format: str, levels: int) -> str:
    return '{"SEQ":' * levels + format + "}" * levels


def lists_of_itself() -> str:
    """A container that holds an option of itself, inside 31 lists."""
    return '{"L":{"NEWTYPESTRUCT":' + nested('{"OPTION":{"TYPENAME":"L"}}', 31) + "}}"


def maps_as_keys() -> str:
    """A container that holds an option of itself as the key of a map, which is the key of another map: 30 maps."""
    levels = 30
    key = '{"MAP":{"KEY":' * levels + '{"OPTION":{"TYPENAME":"K"}}' + ',"VALUE":"UNIT"}}' * levels
    return '{"K":{"NEWTYPESTRUCT":' + key + "}}"


def newtypes(count: int) -> str:
    """COUNT containers, each of which holds the next one. They don't show in JSON."""
    inner = [f'"C{number}":{{"NEWTYPESTRUCT":{{"TYPENAME":"C{number + 1}"}}}}' for number in range(count - 1)]
    return "{" + ",".join([*inner, f'"C{count - 1}":{{"NEWTYPESTRUCT":"U8"}}']) + "}"


def containers(count: int) -> str:
    """Each takes 32 bytes."""
    return "{" + ",".join(f'"C{number:07}":{{"NEWTYPESTRUCT":"U8"}}' for number in range(count)) + "}"


def variants(count: int) -> str:
    return '{"E":{"ENUM":{' + ",".join(f'"{number}":{{"V{number}":"UNIT"}}' for number in range(count)) + "}}}"


def fields(count: int) -> str:
    return '{"S":{"STRUCT":[' + ",".join(f'{{"f{number}":"U8"}}' for number in range(count)) + "]}}"


def members(count: int) -> str:
    """A value of the fields above."""
    return "{" + ",".join(f'"f{number}":1' for number in range(count)) + "}"
