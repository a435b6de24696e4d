"""The command: python3 -m bcs_proved.vectors REG [FORMAT ..] [--count N] [--seed S] [--texts]"""

from __future__ import annotations

import argparse
import json
import os
import pathlib
import sys
import threading
from typing import NoReturn

from bcs_proved import BcsError

from . import lines

_REFUSED, _USAGE, _FAULT = 2, 3, 4
_DESCRIPTION = """
Prints test vectors of a registry: on each line a JSON object with the bytes of a value, or with bytes that must be
refused, by the proved library. The same registry, seed and version give the same lines.
"""
# Values may open 500 containers, each with a format of 32 levels in it, and a level takes some calls.
_CALLS, _STACK = 200_000, 512 << 20


class _Parser(argparse.ArgumentParser):
    def error(self, message: str) -> NoReturn:
        print(f"usage: {message} (see --help)", file=sys.stderr)
        sys.exit(_USAGE)


def _parser() -> _Parser:
    parser = _Parser("python3 -m bcs_proved.vectors", description=_DESCRIPTION, allow_abbrev=False)
    parser.add_argument(
        "reg", metavar="REG", help="a file with the registry, or the registry's JSON, which begins with {"
    )
    parser.add_argument(
        "formats", metavar="FORMAT", nargs="*", help="a format; without one, each container of the registry"
    )
    parser.add_argument(
        "--count", metavar="N", type=_count, default=0, help="N random values more, and changes of them"
    )
    parser.add_argument("--seed", metavar="S", type=int, default=1, help="another set of values")
    parser.add_argument(
        "--texts", action="store_true", help="JSON documents that a decoder of JSON has to accept or refuse"
    )
    return parser


def _count(word: str) -> int:
    number = int(word)
    if number < 0:
        raise argparse.ArgumentTypeError(f"a number from 0 is needed, not {word}")
    return number


def _print(arguments: argparse.Namespace) -> int:
    """Prints the lines, and returns how many there are."""
    reg = arguments.reg
    text = os.fsencode(reg) if reg.startswith("{") else pathlib.Path(reg).read_bytes()
    count = 0
    for line in lines(text, arguments.formats, arguments.count, arguments.seed, arguments.texts):
        sys.stdout.write(json.dumps(line, separators=(",", ":")) + "\n")
        count += 1
    sys.stdout.flush()
    return count


def _status(arguments: argparse.Namespace) -> int:
    try:
        if _print(arguments):
            return 0
        print("no lines: the registry has no containers, and no FORMAT is named", file=sys.stderr)
        return _USAGE
    except BcsError as refusal:
        print(refusal, file=sys.stderr)
        return _REFUSED
    except BrokenPipeError:
        # nobody reads on, and what Python would still write at its end goes nowhere
        os.dup2(os.open(os.devnull, os.O_WRONLY), sys.stdout.fileno())
        return _FAULT
    except OSError as fault:
        print(f"fault: {fault.filename}: {fault.strerror}" if fault.filename else f"fault: {fault}", file=sys.stderr)
        return _FAULT
    except ImportError as fault:
        print(f"fault: {fault}", file=sys.stderr)
        return _FAULT
    except MemoryError:
        print("fault: out of memory", file=sys.stderr)
        return _FAULT


def main() -> int:
    """Runs in a thread of its own, which gets the stack that deep values need."""
    arguments = _parser().parse_args()
    statuses: list[int] = []
    sys.setrecursionlimit(_CALLS)
    threading.stack_size(_STACK)
    thread = threading.Thread(target=lambda: statuses.append(_status(arguments)), daemon=True)
    thread.start()
    try:
        thread.join()
    except KeyboardInterrupt:
        return 130
    return statuses[0] if statuses else _FAULT


if __name__ == "__main__":
    sys.exit(main())
