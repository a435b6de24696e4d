"""Calls on a thread with a small stack, which is the first argument, in bytes: prints what became of each.
test_hostile.py runs it, since a stack that overflows ends the process."""

import json
import sys
import threading
from typing import Any, Callable

from bcs_proved import Registry, StackError

CHAIN = 500
LIST = {"L": {"STRUCT": [{"next": {"OPTION": {"TYPENAME": "L"}}}]}}
NEWTYPES = {
    f"N{place}": {"NEWTYPESTRUCT": {"TYPENAME": f"N{place + 1}"} if place + 1 < CHAIN else "U8"}
    for place in range(CHAIN)
}
TREE = {"T": {"NEWTYPESTRUCT": {"SEQ": {"TYPENAME": "T"}}}}
WIDE = {"W": {"TUPLESTRUCT": [{"MAP": {"KEY": "U8", "VALUE": {"OPTION": {"SEQ": {"TYPENAME": "W"}}}}}]}}


def nested(levels: int) -> Any:
    """A list's text nests two levels for each container, and the last one's one."""
    value: Any = {"next": None}
    for _ in range(levels - 1):
        value = {"next": {"some": value}}
    return value


def tree(levels: int) -> Any:
    value: Any = []
    for _ in range(levels - 1):
        value = [value]
    return value


def levels_of(levels: int) -> Any:
    value: Any = b""
    for _ in range(levels - 1):
        value = [value]
    return value


def calls() -> dict[str, Callable[[], object]]:
    registry = Registry({**LIST, **NEWTYPES, **TREE, **WIDE})
    value, text, data = nested(50), json.dumps(nested(50)), b"\1" * 49 + b"\0"
    deep = b"\1" * 499 + b"\0"
    levels: Any = "U8"
    for _ in range(31):
        levels = {"SEQ": levels}
    return {
        "encode a number": lambda: registry.encode('"U8"', 7) == b"\7",
        "encode a list of 10": lambda: registry.encode("L", nested(10)) == b"\1" * 9 + b"\0",
        "decode 31 levels": lambda: registry.decode(levels, b"\1" * 30 + b"\0") == levels_of(31),
        "encode a list of 50": lambda: registry.encode("L", value) == data,
        "encode a text of 50": lambda: registry.encode_json("L", text) == data,
        "normalise a list of 50": lambda: registry.normalise("L", value) == value,
        "compare lists of 50": lambda: registry.equal("L", value, value),
        "decode a list of 50": lambda: registry.decode("L", data) == value,
        "encode a tree of 100": lambda: registry.encode("T", tree(100)) == b"\1" * 99 + b"\0",
        "decode a tree of 100": lambda: registry.decode("T", b"\1" * 99 + b"\0") == tree(100),
        "decode a wide tree": lambda: registry.decode("W", b"\1\7\1\1" * 18 + b"\0") is not None,
        "encode 500 newtypes": lambda: registry.encode("N0", 7) == b"\7",
        "decode 500 newtypes": lambda: registry.decode("N0", b"\7") == 7,
        "scan a list of 500": lambda: registry.scan("L", deep) == 500,
        "scan a tree of 500": lambda: registry.scan("T", deep) == 500,
        "explain a list of 500": lambda: registry.explain_text("L", deep).count("\n") == 500,
        "a part of a list of 500": lambda: registry.part("L", deep, "inner/0/inner/inner/0") is not None,
        "a named part of a list of 500": lambda: registry.part_by_name("L", deep, ".next?" * 400) is not None,
    }


def run(size: int) -> None:
    threading.stack_size(size)
    for name, call in calls().items():
        told: list[str] = []

        def tell(call: Callable[[], object] = call, told: list[str] = told) -> None:
            try:
                told.append("done" if call() else "wrong")
            except StackError:
                told.append("StackError")

        thread = threading.Thread(target=tell)
        thread.start()
        thread.join()
        print(f"{name}: {told[0]}", flush=True)


if __name__ == "__main__":
    run(int(sys.argv[1]))
