#!/usr/bin/env python3
"""Builds the proved library crates/bcs_c, or the proved program crates/bcs, over the libraries that are already built.

    tools/proved_code.py FILE                     makes FILE, the archive of the library
    tools/proved_code.py --program FILE           makes FILE, the object file of the program
    tools/proved_code.py --module FILE            makes FILE, the library's LLVM module as text, for other processors
    tools/proved_code.py --program-module FILE    makes FILE, the program's LLVM module as text

The crate itself is proved once more. The libraries below it were built by `rt ci`, `rt lib` or tools/build.py. If one
is missing, `rt` builds all of them first. The gate uses this script and not `rt lib`, since `rt lib` only keeps what
it built itself: it would build each library again that `rt ci` has built a moment before.

Archive and program are compiled like `rt` compiles them, except that no jump crosses a boundary of 32 bytes. Intel's
processors of 2015 to 2019 are slow at a jump that does (Intel calls it the erratum of jump conditional code), so a
loop took up to 8 % more or less time, depending on where the linker put it.

The toolchain passes an LLVM module of the proved code to clang, for x86-64. `--module` and `--program-module` keep that
module, for the first level of that processor, since for later levels it calls functions that only they have.
platforms/wasm/module.py, platforms/arm64 and platforms/windows compile it for other targets.
"""

from __future__ import annotations

import pathlib
import subprocess
import sys
import tempfile

import toolchain


def prove_and_build(crate: pathlib.Path, made: pathlib.Path, tools: pathlib.Path, *more: str) -> None:
    """Proves the crate, and makes its archive or object file with these tools and these further arguments of rattle."""
    [described] = toolchain.crates(crate)
    command = [str(toolchain.folder() / "bin/rattle"), "build", *described.words(["--jobs", "1"])]
    command += ["--incremental", "out/incremental", *more, "--toolchain", str(tools), "-o", str(made)]
    (crate / "out").mkdir(exist_ok=True)
    built = subprocess.run(command, cwd=crate, stdout=subprocess.PIPE, stderr=subprocess.STDOUT, text=True)
    if built.returncode != 0:
        print(built.stdout, file=sys.stderr)
        sys.exit(f"{crate.name} isn't proved or built; the libraries below it have to be built first (rt ci, rt lib)")
    print(built.stdout.strip().splitlines()[-1])


def make_below(crate: pathlib.Path) -> None:
    """Makes the libraries below the crate if one is missing. A run that was broken off leaves some out, and a later
    one that has nothing to prove about them doesn't make them."""
    [described] = toolchain.crates(crate)
    if not all(pathlib.Path(library.rlib).exists() for library in described.below()):
        command = ["rt", "run", "--", "--version"] if crate == toolchain.PROGRAM else ["rt", "lib"]
        subprocess.run(command, cwd=crate, stdout=subprocess.DEVNULL, check=True)


def tools_with_clang(room: pathlib.Path, before: str, *more: str) -> pathlib.Path:
    """The toolchain's own tools, with a clang that runs a shell command first and adds these arguments to its own."""
    own, tools = toolchain.folder() / "toolchain", room / "tools"
    (tools / "bin").mkdir(parents=True)
    (tools / "lib").symlink_to(own / "lib")
    for tool in (own / "bin").iterdir():
        if tool.name != "clang":
            (tools / "bin" / tool.name).symlink_to(tool)
    clang = tools / "bin/clang"
    clang.write_text(f'#!/bin/sh\n{before} && exec "{own}/bin/clang" "$@" {" ".join(more)}\n', encoding="utf-8")
    clang.chmod(0o755)
    return tools


def make_code(crate: pathlib.Path, file: pathlib.Path) -> None:
    """Makes the file, the crate's archive or object file."""
    with tempfile.TemporaryDirectory() as room:
        tools = tools_with_clang(pathlib.Path(room), "true", "-mbranches-within-32B-boundaries")
        prove_and_build(crate, file, tools)


def make_module(crate: pathlib.Path, file: pathlib.Path) -> None:
    """Makes the file, the LLVM module of the crate as text, and drops the archive or object file that is made with
    it."""
    with tempfile.TemporaryDirectory() as folder:
        room = pathlib.Path(folder)
        # (what is compiled is dropped, so without optimization)
        tools = tools_with_clang(room, f'cp module.bc "{room}/module.bc"', "-O0")
        prove_and_build(crate, room / "x86.a", tools, "--cpu", "x86-64")
        clang = [str(toolchain.folder() / "toolchain/bin/clang"), "--no-default-config"]
        clang += ["--target=x86_64-unknown-linux-gnu", "-S", "-emit-llvm", "-Xclang", "-disable-llvm-passes"]
        subprocess.run([*clang, "-x", "ir", f"{room}/module.bc", "-o", str(file)], check=True)


def main() -> None:
    option = sys.argv[1] if len(sys.argv) == 3 else ""
    if len(sys.argv) not in (2, 3) or option not in ("", "--program", "--module", "--program-module"):
        sys.exit(f"Usage: {sys.argv[0]} [--program | --module | --program-module] FILE")
    file = pathlib.Path(sys.argv[-1]).resolve()
    crate = toolchain.PROGRAM if "program" in option else toolchain.LIBRARY
    make_below(crate)
    if option.endswith("module"):
        make_module(crate, file)
    else:
        make_code(crate, file)


if __name__ == "__main__":
    main()
