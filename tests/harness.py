"""What tests share: running commands, comparing what they print, counting, and failing with the script's name."""

from __future__ import annotations

import argparse
import difflib
import os
import pathlib
import re
import resource
import signal
import subprocess
import sys
from collections.abc import Callable, Sequence
from typing import NoReturn

ROOT = pathlib.Path(__file__).resolve().parent.parent
# That of the script, in front of each line that it prints.
NAME = pathlib.Path(sys.argv[0]).stem.replace("_", " ")
# Where `rt ci` or `rt run` leaves the program.
PROGRAMS = str(ROOT / "crates/bcs/out")

Word = str | pathlib.Path
# Variables of the environment to set, or to remove if None.
Variables = dict[str, str | None]


class Failed(Exception):
    """What a test found wrong."""


def fail(what: str) -> NoReturn:
    """Ends the script."""
    sys.exit(f"{NAME}: FAILED: {what}")


def passed(what: str) -> None:
    print(f"{NAME}: {what}", flush=True)


def require(holds: bool, what: str) -> None:
    if not holds:
        raise Failed(what)


def report(tried: int, faults: Sequence[str]) -> int:
    """Prints the faults, and how many tests passed. Returns the script's status: if no test was tried, it failed."""
    for fault in faults:
        print(f"{NAME}: FAILED: {fault}")
    print(f"{NAME}: {tried - len(faults)} passed, {len(faults)} failed")
    return 0 if tried and not faults else 1


def end_with(main: Callable[[], int | None]) -> NoReturn:
    """Ends the script with the status of its main function, or with what a test found wrong."""
    try:
        sys.exit(main())
    except Failed as fault:
        fail(str(fault))


def arguments(description: str | None, *names: str, **options: str | int) -> argparse.Namespace:
    """The arguments of the script: those with names, and the last ones, which have default values."""
    parser = argparse.ArgumentParser(
        description=description, formatter_class=argparse.RawDescriptionHelpFormatter, allow_abbrev=False
    )
    for name in names:
        parser.add_argument(name)
    for name, default in options.items():
        parser.add_argument(name, nargs="?", type=type(default), default=default)
    return parser.parse_args()


def program_in_folder(description: str | None) -> pathlib.Path:
    """The program `bcs` of the folder that the script's argument names, and without one that of `rt ci` or `rt run`."""
    return program_in(arguments(description, folder=PROGRAMS).folder)


def program_in(folder: str) -> pathlib.Path:
    """The program `bcs` of a folder."""
    program = pathlib.Path(folder).resolve() / "bcs"
    if not os.access(program, os.X_OK):
        fail(f"{program} isn't a program")
    return program


def clean_up_on_sigterm() -> None:
    """Lets SIGTERM end this process like an exception, so that what it has made is deleted."""
    signal.signal(signal.SIGTERM, lambda *_: sys.exit(143))


def ran(
    *words: Word, folder: pathlib.Path = ROOT, given: str = "", variables: Variables | None = None, merged: bool = False
) -> subprocess.CompletedProcess[str]:
    """Runs a command, and returns how it ended. If merged, its standard error is in its output."""
    environment: Variables = {**os.environ}
    environment |= variables or {}
    try:
        return subprocess.run(
            [str(word) for word in words],
            cwd=folder,
            env={name: value for name, value in environment.items() if value is not None},
            input=given,
            stdout=subprocess.PIPE,
            stderr=subprocess.STDOUT if merged else subprocess.PIPE,
            encoding="utf-8",
            errors="backslashreplace",
        )
    except OSError as fault:
        raise Failed(str(fault)) from None


def run(*words: Word, folder: pathlib.Path = ROOT, given: str = "", variables: Variables | None = None) -> str:
    """Runs a command, which must succeed, and returns what it printed on standard output."""
    end = ran(*words, folder=folder, given=given, variables=variables)
    if end.returncode != 0:
        raise Failed(f"{end.stdout}{end.stderr}status {end.returncode}: {' '.join(map(str, words))}")
    return end.stdout


def log_of(*words: Word, variables: Variables | None = None) -> str:
    """Runs a command, which must succeed, and returns what it printed on both streams."""
    end = ran(*words, variables=variables, merged=True)
    if end.returncode != 0:
        raise Failed(f"{end.stdout}status {end.returncode}: {' '.join(map(str, words))}")
    return end.stdout


def refused(*words: Word, reason: str) -> None:
    """Runs a command, which must fail and print the reason, a regular expression."""
    end = ran(*words)
    if end.returncode == 0:
        raise Failed(f"succeeds, and must fail: {' '.join(map(str, words))}")
    if not re.search(reason, end.stdout + end.stderr):
        raise Failed(f"fails for another reason than {reason!r}: {' '.join(map(str, words))}\n{end.stdout}{end.stderr}")


def require_same(what: str, printed: str, expected: str) -> None:
    if printed != expected:
        lines = difflib.unified_diff(expected.splitlines(), printed.splitlines(), "expected", "printed", lineterm="")
        raise Failed("\n".join([f"{what} prints:", *lines]))


def processor_seconds() -> float:
    """Of all commands that this process has run so far."""
    usage = resource.getrusage(resource.RUSAGE_CHILDREN)
    return usage.ru_utime + usage.ru_stime


def output_of_c_example() -> str:
    """What bindings/c/example.c must print, as its first comment says."""
    source = (ROOT / "bindings/c/example.c").read_text(encoding="utf-8")
    lines = re.findall(r"^       ([0-9{r].*?)(?: \*/)?$", source, flags=re.M)
    if len(lines) != 3:
        raise Failed(f"bindings/c/example.c says in {len(lines)} lines what it prints, and not in 3")
    return "".join(line + "\n" for line in lines)
