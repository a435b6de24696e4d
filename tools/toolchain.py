"""The toolchain: where it is, and what its command `rt` knows about a crate.

`rt` proves a whole crate, with everything below it, and prints no part of that work. This repository needs the parts:
the arguments for the prover, so that a crate is built over libraries that are proved already (tools/proved_code.py)
and several crates are proved side by side (tools/build.py); the checksum that decides whether a crate is built; and
the lock that keeps another `rt` out. `rt` has them in `rtlib.py`, which is private: a newer toolchain may change it
without notice. So only this module loads it, and everything that may break then is in `Crate` and in the functions
below it.
"""

from __future__ import annotations

import functools
import importlib.util
import pathlib
import subprocess
import sys
import types
from collections.abc import Iterable
from typing import Protocol, cast

ROOT = pathlib.Path(__file__).resolve().parent.parent
LIBRARY = ROOT / "crates/bcs_c"
PROGRAM = ROOT / "crates/bcs"


class Crate(Protocol):
    """What `rt` knows about a crate of this repository."""

    name: str
    folder: str
    is_program: bool
    # the toolchain's libraries that it uses
    of_kit: list[str]
    # where its library is built
    rlib: str

    def below(self) -> list[Crate]:
        """The libraries of this repository that it uses, each after those that it uses itself."""

    def sources_below(self) -> list[str]:
        """The arguments that name the sources of the libraries below it."""

    def words(self, flags: list[str]) -> list[str]:
        """The arguments that `rattle` needs to prove or build it, beside these flags."""

    def stamp(self) -> str:
        """The checksum of its sources and of those below it, as they were when it was first computed."""


@functools.cache
def folder() -> pathlib.Path:
    """Where the toolchain is: its guide, whose path `rt doc` prints, is at the top."""
    try:
        page = subprocess.run(["rt", "doc"], capture_output=True, text=True, check=True).stdout
    except FileNotFoundError:
        sys.exit("command not found: rt. Building needs the Rattle toolchain")
    return pathlib.Path(page.strip()).parent


@functools.cache
def rtlib() -> types.ModuleType:
    """The code behind `rt`. It isn't compiled into the toolchain's folder."""
    spec = importlib.util.spec_from_file_location("rtlib", folder() / "bin/rtlib.py")
    assert spec and spec.loader
    module = importlib.util.module_from_spec(spec)
    sys.dont_write_bytecode = True
    spec.loader.exec_module(module)
    # The checksum of a crate covers the crates below it, and each would be computed again for every crate above.
    module.Crate.stamp = functools.cache(module.Crate.stamp)
    return module


def crates(*folders: pathlib.Path) -> list[Crate]:
    """The crates in these folders. Those that they share below them are the same objects."""
    known: dict[str, Crate] = {}
    return [cast(Crate, rtlib().Crate(str(it), str(ROOT), known, name=None)) for it in folders]


def sources_below(crate: Crate) -> list[str]:
    """The arguments that name the sources of all libraries below the crate, also the toolchain's."""
    used = [name for it in [crate, *crate.below()] for name in it.of_kit]
    return [*crate.sources_below(), *cast(list[str], rtlib().kit_sources(used))]


def lock(crates_to_hold: Iterable[Crate]) -> None:
    """Waits until no other `rt` works in the folders of these crates, and keeps others out until this process ends."""
    rtlib().lock(crates_to_hold)


def guarded() -> list[str]:
    """The arguments to put before a command, so that it ends when this process ends. The first call sets a signal
    handler, which Python allows only in the main thread."""
    return cast(list[str], rtlib().guarded())
