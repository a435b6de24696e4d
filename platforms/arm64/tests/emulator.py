"""What the tests for arm64 share: how to compile for that processor, to run what was compiled, and to fail."""

import os
import pathlib
import subprocess
import sys
from collections.abc import Mapping, Sequence
from dataclasses import dataclass
from typing import NoReturn

HERE = pathlib.Path(__file__).resolve().parent
ROOT = HERE.parent.parent.parent
C = ROOT / "bindings/c"

COMPILER = "aarch64-linux-gnu-gcc"
EMULATOR = ["qemu-aarch64-static", "-L", "/usr/aarch64-linux-gnu"]

Argument = str | pathlib.Path


def fail(message: str) -> NoReturn:
    print(f"arm64: FAILED: {message}")
    sys.exit(1)


def passed(message: str) -> None:
    print(f"arm64: {message}", flush=True)


def words(*arguments: Argument) -> list[str]:
    """A command of strings and paths."""
    return [str(argument) for argument in arguments]


def run(
    name: str,
    command: Sequence[str],
    *,
    folder: pathlib.Path | None = None,
    variables: Mapping[str, str] | None = None,
) -> str:
    """Runs a command, with variables of the environment besides our own, and returns what it prints. If it fails, the
    test fails under this name, and shows the output."""
    environment = os.environ | (variables or {})
    made = subprocess.run(command, cwd=folder, env=environment, stdin=subprocess.DEVNULL, capture_output=True)
    output = made.stdout.decode(errors="replace")
    if made.returncode != 0:
        print(output + made.stderr.decode(errors="replace"), end="")
        fail(f"{name}: status {made.returncode}")
    return output


def rows(name: str, *arguments: Argument) -> None:
    """Asks the rows, and shows all of their output only if one of them fails."""
    output = run(f"rows, {name}", words("python3", ROOT / "tests/rows", *arguments))
    passed(f"{name}: {output.splitlines()[-1]}")


def unpack_debian(folder: pathlib.Path, *packages: str) -> None:
    """Unpacks packages of Debian for arm64."""
    run(f"these packages aren't available: {' '.join(packages)}", words(HERE / "debian.sh", folder, *packages))


@dataclass(frozen=True)
class Bench:
    """The folder with the files that are tested, and one for what a test makes, which is removed at the end."""

    built: pathlib.Path
    room: pathlib.Path

    def compile(self, name: str, *arguments: Argument) -> pathlib.Path:
        """Compiles a program or a library of this name with the header of the C library."""
        made = self.room / name
        options = ["-std=gnu11", "-O2", "-Wall", "-Wextra", "-Werror", f"-I{C}/include"]
        run(f"compiling {name}", words(COMPILER, *options, *arguments, "-o", made))
        return made

    def test_of_c(self, name: str, library: str, *arguments: str) -> str:
        """Compiles a test of the C library and runs it."""
        program = self.compile(name, "-static", C / f"tests/{name}.c", self.built / library, "-pthread")
        return run(f"tests/{name}.c of the C library", words(*EMULATOR, program, *arguments))
