#!/usr/bin/env python3
"""Proves and builds the libraries of `bcs` and `bcs_c`, and the program.

    tools/build.py                      proves and builds what has changed
    tools/build.py --check CRATE..      proves these crates, over the libraries that are built already
    tools/build.py --unproved FOLDER    builds the program and the library of C in FOLDER, without proofs, for trials

Several crates are proved side by side, as far as there are processors and memory. A crate that is built already isn't
built again, so a build that was broken off continues where it was.

Like in `rt ci`, a crate is proved over what the crates below it state, and not over their proofs. `rt lib` reads
these too, and keeps its work for the next check: `bcs_registry_model` took 210 processor seconds with it, and 188
here. `rt check` and `rt lib` can't use these libraries (docs/DECISIONS.md), and remove them: `--check` keeps them.
A crate is proved in one job, even when no other crate is ready, since each further job reads all libraries
below once more: with four jobs `bcs_tool_answers` took 430 processor seconds, and 220 with one.
"""

from __future__ import annotations

import argparse
import os
import pathlib
import shutil
import subprocess
import sys
import traceback
from concurrent.futures import FIRST_COMPLETED, Future, ThreadPoolExecutor, wait

import toolchain

# What a prover needs at most.
MEMORY = 3_000_000_000


def workers() -> int:
    """How many crates are built side by side."""
    lines = pathlib.Path("/proc/meminfo").read_text(encoding="ascii").splitlines()
    free = next(int(line.split()[1]) * 1024 for line in lines if line.startswith("MemAvailable:"))
    return max(min(len(os.sched_getaffinity(0)), free // MEMORY), 1)


class Build:
    """A crate and what is made from it."""

    def __init__(self, crate: toolchain.Crate) -> None:
        self.crate = crate
        self.folder = pathlib.Path(crate.folder)
        self.made = self.folder / "out/bcs" if crate.is_program else pathlib.Path(crate.rlib)
        self.note = self.made.parent / "built"

    def origin(self) -> str:
        """What it is made from: its sources and those below, and the libraries below in their present state."""
        below = [pathlib.Path(it.rlib, "format") for it in self.crate.below()]
        return " ".join([self.crate.stamp(), *(str(it.stat().st_mtime_ns) for it in below)])

    def is_current(self) -> bool:
        """Whether it was made, from what is there now."""
        try:
            return self.made.exists() and self.note.read_text(encoding="ascii") == self.origin()
        except FileNotFoundError:
            return False

    def run(self, *command: str) -> subprocess.CompletedProcess[str]:
        """Runs a command of the toolchain, which ends when this script ends."""
        return subprocess.run(
            [*toolchain.guarded(), *command],
            cwd=self.folder,
            stdin=subprocess.DEVNULL,
            stdout=subprocess.PIPE,
            stderr=subprocess.STDOUT,
            text=True,
            errors="replace",
        )

    def make(self) -> str | None:
        """Makes it, unless it is current. If that fails, it returns the last lines of the output."""
        if self.is_current():
            return None
        command = [str(toolchain.folder() / "bin/rattle"), "build", *self.crate.words(["--jobs", "1"])]
        ran = self.make_program(command) if self.crate.is_program else self.make_library(command)
        if ran.returncode != 0:
            return "\n".join(ran.stdout.splitlines()[-20:])
        self.note.write_text(self.origin(), encoding="ascii")
        return None

    def make_library(self, command: list[str]) -> subprocess.CompletedProcess[str]:
        shutil.rmtree(self.made.parent, ignore_errors=True)
        self.made.parent.mkdir(parents=True)
        return self.run(*command, "--statements", "-o", str(self.made))

    def make_program(self, command: list[str]) -> subprocess.CompletedProcess[str]:
        kit = toolchain.folder()
        tools = ["--toolchain", str(kit / "toolchain")]
        self.made.parent.mkdir(exist_ok=True)
        self.note.unlink(missing_ok=True)
        ran = self.run(*command, *tools, "--backend", "llvm", "-o", f"{self.made}.o")
        if ran.returncode != 0:
            return ran
        link = [str(kit / "bin/rattle-link"), "--target", "x86_64-unknown-linux-gnu", *tools]
        libraries = [str(kit / f"c/lib{it}_c.a") for it in ("os", "libc")]
        return self.run(*link, "-o", str(self.made), f"{self.made}.o", *libraries)


def make_all(builds: dict[str, Build]) -> None:
    """Makes all of them, each after those below it. If one fails, this ends the provers that still run, and the
    script."""
    waiting, made = list(builds), set[str]()
    running: dict[Future[str | None], str] = {}
    pool = ThreadPoolExecutor(workers())
    while len(made) < len(builds):
        ready = [name for name in waiting if made.issuperset(it.name for it in builds[name].crate.below())]
        for name in ready:
            waiting.remove(name)
            running[pool.submit(builds[name].make)] = name
        for ended in wait(running, return_when=FIRST_COMPLETED).done:
            name, error = running.pop(ended), ended.result()
            if error is not None:
                print(f"{error}\nbcs: {name} could not be built", file=sys.stderr, flush=True)
                os._exit(1)
            made.add(name)
            print(f"bcs: {len(made)} of {len(builds)}: {name} is proved", file=sys.stderr, flush=True)


def prove(crates: dict[str, toolchain.Crate], checked: list[toolchain.Crate]) -> None:
    """Makes all these crates, and keeps other commands out of them and of those that will be checked."""
    # The prover's allocator then keeps its memory, which saves page faults.
    os.environ["MIMALLOC_PURGE_DELAY"] = "-1"
    # (the first call has to be in this thread)
    toolchain.guarded()
    toolchain.lock({**crates, **{it.name: it for it in checked}}.values())
    # The checksums are those of the sources at the start, so what is saved later counts as not built.
    for crate in crates.values():
        crate.stamp()
    try:
        make_all({name: Build(crate) for name, crate in crates.items()})
    except KeyboardInterrupt:
        os._exit(130)
    except Exception:  # the provers that still run aren't waited for
        traceback.print_exc()
        os._exit(1)


def build() -> None:
    """Proves and builds the program, and the libraries below it and below the library of C."""
    program, library = toolchain.crates(toolchain.PROGRAM, toolchain.LIBRARY)
    prove({it.name: it for it in [*program.below(), *library.below(), program]}, [])


def check(names: list[str]) -> int:
    """Proves these crates, over libraries that are built first if they aren't current. Returns the first status that
    isn't 0, if there is one."""
    crates = toolchain.crates(*(toolchain.ROOT / "crates" / name for name in names))
    prove({it.name: it for crate in crates for it in crate.below()}, crates)
    command = [str(toolchain.folder() / "bin/rattle"), "check", "--progress", "--incremental", "out/incremental"]
    ended = [subprocess.run([*command, *it.words(["--jobs", "1"])], cwd=it.folder).returncode for it in crates]
    return next((status for status in ended if status), 0)


def main() -> int:
    parser = argparse.ArgumentParser(description="Proves and builds the libraries and the program.")
    parser.add_argument("--check", nargs="+", metavar="CRATE", help="prove these crates, with only the libraries below")
    parser.add_argument("--unproved", type=pathlib.Path, metavar="FOLDER", help="build in FOLDER without proofs")
    parser.add_argument("--only", choices=["program", "libraries"], help="with --unproved: build only these")
    given = parser.parse_args()
    if given.only and not given.unproved:
        parser.error("--only needs --unproved")
    if given.check and given.unproved:
        parser.error("--check proves, and --unproved doesn't")
    if given.check:
        return check(given.check)
    if given.unproved:
        # (no source of dist/, so it may be missing)
        import unproved

        unproved.build(given.unproved, given.only)
    else:
        build()
    return 0


if __name__ == "__main__":
    sys.exit(main())
