#!/usr/bin/env python3
"""platforms/wasm/module.py FOLDER: makes the proved code as WebAssembly.

FOLDER/bcs64.wasm has the proved calls, in a memory with 64-bit addresses. bcs.wasm has them in a memory with 32-bit
addresses, for engines that know no other. bcs_scalar.wasm is the same without vectors: platforms/portable translates
it into C. bcs_program.wasm is the whole proved program `bcs`, with 32-bit addresses and without vectors. It imports
the functions that platforms/hosts describes, and exports `main` and its memory.

The toolchain proves the static library crates/bcs_c and the program crates/bcs, and passes an LLVM module of each to
clang, for x86-64. It makes none for WebAssembly, since code that allocates calls C. So this script keeps those LLVM
modules and renames them to the target wasm64, where sizes and layouts are the same. The toolchain's own clang and
linker compile them and link them with heap_wasm64.c and wide_wasm64.c. For bcs64.wasm that is all. The others have
another heap, and wasm-opt, from Debian's package binaryen, cuts their addresses to 32 bits. The proofs are those of
the library and of the program. What happens to their LLVM modules is trusted, and tested.

Between clang's steps two things are written in other instructions of the same meaning (module_rewriting.py):
reversing the bytes of a number, for which WebAssembly has no instruction, and loads of parts of a vector, which
wasm-opt doesn't lower.

    --code FILE            the library's LLVM module, as tools/proved_code.py --module makes it; without it, it is made
    --program-code FILE    the program's, as tools/proved_code.py --program-module makes it; without it, it is made
    --stack BYTES          the size of the stack within the memory of bcs_scalar.wasm and bcs_program.wasm; without it,
                           16 MiB, enough for all limits on depth. The others have 4 MiB: the engine's stack ends first
"""

from __future__ import annotations

import argparse
import os
import pathlib
import re
import subprocess
import sys
import tempfile
from collections.abc import Callable
from typing import NamedTuple

HERE = pathlib.Path(__file__).resolve().parent
# (the folders have to be known before the imports)
sys.dont_write_bytecode = True
sys.path.insert(0, str(HERE.parent.parent / "tools"))
sys.path.insert(0, str(HERE))
import toolchain  # noqa: E402 (the folder has to be known first)
from module_rewriting import by_shuffles, by_whole_loads, with_plain_names  # noqa: E402
from proved_code import make_below, make_module  # noqa: E402

HEADER = HERE.parent.parent / "bindings/c/proved.h"
# (When it optimizes, clang recognises a product of 128 bits in __multi3, and compiles it to a call of __multi3.)
OWN_PARTS = {"heap_wasm64": "-O2", "wide_wasm64": "-O0"}
FOR_THE_LOADER = ["take_memory", "give_memory"]
HOST = HERE.parent / "hosts/functions"
TARGET = "wasm64-unknown-unknown"
CPU = "lime1"
SECTIONS = ["-ffunction-sections", "-fdata-sections"]
LAYOUT = "e-m:e-p:64:64-p10:8:8-p20:8:8-i64:64-i128:128-n32:64-S128-ni:1:10:20"
# rattle passes these two to clang for wasm64: division and conversion beyond 64 bits become plain code.
WIDE_NUMBERS = ["-mllvm", "-expand-div-rem-bits=64", "-mllvm", "-expand-fp-convert-bits=64"]
# Inlines functions that call one another for each part. That saves a twentieth of the time for a small value.
INLINING = ["-mllvm", "-inline-threshold=450"]
# The version of Debian 12.
BINARYEN = "wasm-opt version 108"
# The size of the stack within the memory of the modules that an engine runs on its own stack.
STACK_IN_ENGINES = 4 << 20
FEATURES = ["memory64", "simd", "bulk-memory", "sign-ext", "mutable-globals", "nontrapping-float-to-int"]


def renamed(code: str) -> str:
    """The LLVM module for the other target, and without what only x86-64 has."""
    code, layouts = re.subn(r"^target datalayout = .*", f'target datalayout = "{LAYOUT}"', code, flags=re.M)
    code, triples = re.subn(r"^target triple = .*", f'target triple = "{TARGET}"', code, flags=re.M)
    if (layouts, triples) != (1, 1):
        sys.exit("module: the LLVM module doesn't name its target as it used to")
    return with_plain_names(re.sub(r' ?"(probe-stack|stack-probe-size|target-cpu|target-features)"="[^"]*"', "", code))


class Maker:
    """Makes modules from the renamed code in the room. They may import the functions of the host."""

    def __init__(
        self, kit: pathlib.Path, room: pathlib.Path, exports: list[str], host: list[str], stack: int, has_vectors: bool
    ) -> None:
        self.program = str(kit / "toolchain/bin/clang")
        self.room, self.exports, self.host, self.stack, self.has_vectors = room, exports, host, stack, has_vectors

    def compile_code(self) -> None:
        """Optimizes the code, lets clang write it in WebAssembly's words, and makes an object file from those."""
        if not self.has_vectors:
            # With more inlining the module, and the C made from it, are half as long again, and no faster.
            whole = [*WIDE_NUMBERS, *SECTIONS, "-O2", "-c"]
            self.clang(*whole, "-x", "ir", self.at("code.ll"), "-o", self.at("code.o"))
            return
        optimize = [*WIDE_NUMBERS, *INLINING, "-O3", "-S", "-emit-llvm"]
        self.clang(*optimize, "-x", "ir", self.at("code.ll"), "-o", self.at("optimized.ll"))
        self.rewrite("optimized.ll", by_shuffles)
        in_words = [*WIDE_NUMBERS, *SECTIONS, "-O3", "-Xclang", "-disable-llvm-passes", "-S"]
        self.clang(*in_words, "-x", "ir", self.at("optimized.ll"), "-o", self.at("code.s"))
        self.rewrite("code.s", by_whole_loads)
        # The assembler takes the address of a vector for one of 32 bits. So types are checked in what the linker makes.
        assemble = ["-cc1as", "-triple", TARGET, "-target-cpu", CPU, "-target-feature", "+simd128", "-mno-type-check"]
        words = [*assemble, "-filetype", "obj", "-o", self.at("code.o"), self.at("code.s")]
        subprocess.run([self.program, *words], check=True)

    def make(self, out: pathlib.Path, *options: str) -> None:
        """Links the code with the parts in C, which are compiled with these options."""
        for name, level in OWN_PARTS.items():
            in_c = [*SECTIONS, "-std=c11", "-ffreestanding", "-Wall", "-Wextra", "-Werror", *options, level]
            self.clang(*in_c, "-c", f"{HERE}/{name}.c", "-o", self.at(f"{name}.o"))
        self.link(out)

    def link(self, out: pathlib.Path) -> None:
        """Places the stack first, so that code that overruns it leaves the memory, and traps."""
        words = ["-mwasm64", "--no-entry", "--stack-first", "-z", f"stack-size={self.stack}"]
        words += ["--gc-sections", "--strip-all"]
        words += [f"--export={name}" for name in self.exports]
        if self.host:
            (self.room / "host").write_text("".join(f"{name}\n" for name in self.host))
            words.append(f"--allow-undefined-file={self.at('host')}")
        objects = [self.at(f"{name}.o") for name in ["code", *OWN_PARTS]]
        subprocess.run(["wasm-ld", *words, *objects, "-o", str(out)], executable=self.program, check=True)

    def clang(self, *words: str) -> None:
        vectors = ["-msimd128"] if self.has_vectors else ["-mno-simd128"]
        target = ["--no-default-config", f"--target={TARGET}", f"-mcpu={CPU}", *vectors]
        subprocess.run([self.program, *target, *words], check=True)

    def rewrite(self, name: str, change: Callable[[str], str]) -> None:
        file = self.room / name
        file.write_text(change(file.read_text()))

    def at(self, name: str) -> str:
        return str(self.room / name)


def lower(wide: pathlib.Path, out: pathlib.Path) -> None:
    """Cuts the addresses of a module to 32 bits."""
    try:
        version = subprocess.run(["wasm-opt", "--version"], capture_output=True, text=True, check=True).stdout
    except FileNotFoundError:
        sys.exit("module: there is no wasm-opt; on Debian: apt-get install binaryen")
    if not version.startswith(BINARYEN):
        sys.exit(f"module: {BINARYEN} is needed, since others make other bytes, and this is {version.strip()}")
    features = [f"--enable-{feature}" for feature in FEATURES]
    subprocess.run(["wasm-opt", *features, "--memory64-lowering", str(wide), "-o", str(out)], check=True)


def proved_calls() -> list[str]:
    calls = re.findall(r"^(?:bcs_answer|void) (bcs_c_\w+)\(", HEADER.read_text(), flags=re.M)
    if not calls:
        sys.exit(f"module: {HEADER} declares no proved calls")
    return calls


def functions_of_host() -> list[str]:
    return HOST.read_text(encoding="utf-8").split()


class Wanted(NamedTuple):
    """Which modules to make.

    `narrow` has 32-bit addresses, `scalar` is the same without vectors, and `wide` has 64-bit addresses.
    """

    narrow: pathlib.Path | None = None
    scalar: pathlib.Path | None = None
    wide: pathlib.Path | None = None


def make_from(kit: pathlib.Path, code: pathlib.Path | None, crate: pathlib.Path, wanted: Wanted, stack: int) -> None:
    """Makes modules from a crate's LLVM module, which is made first if there is none."""
    with tempfile.TemporaryDirectory() as folder:
        room = pathlib.Path(folder)
        if code is None:
            code = room / "x86.ll"
            make_below(crate)
            make_module(crate, code)
        (room / "code.ll").write_text(renamed(code.read_text()))
        is_program = crate == toolchain.PROGRAM
        exports = ["main"] if is_program else [*FOR_THE_LOADER, *proved_calls()]
        host = functions_of_host() if is_program else []
        for narrow, wide, has_vectors in [(wanted.narrow, wanted.wide, True), (wanted.scalar, None, False)]:
            if narrow:
                own_stack = STACK_IN_ENGINES if has_vectors else stack
                maker = Maker(kit, room, exports, host, own_stack, has_vectors)
                maker.compile_code()
                if wide:
                    maker.make(wide)
                maker.make(room / "wide.wasm", "-DNARROW")
                lower(room / "wide.wasm", narrow)
    for file in filter(None, wanted):
        print(f"module: {file.name}, {os.path.getsize(file)} bytes")


def main() -> None:
    parser = argparse.ArgumentParser(description=__doc__, formatter_class=argparse.RawDescriptionHelpFormatter)
    parser.add_argument("folder", type=pathlib.Path)
    parser.add_argument("--code", type=pathlib.Path)
    parser.add_argument("--program-code", type=pathlib.Path)
    parser.add_argument("--stack", type=int, default=16 << 20)
    asked = parser.parse_args()
    folder: pathlib.Path = asked.folder
    folder.mkdir(parents=True, exist_ok=True)
    kit = toolchain.folder()
    calls = Wanted(folder / "bcs.wasm", folder / "bcs_scalar.wasm", folder / "bcs64.wasm")
    make_from(kit, asked.code, toolchain.LIBRARY, calls, asked.stack)
    make_from(kit, asked.program_code, toolchain.PROGRAM, Wanted(scalar=folder / "bcs_program.wasm"), asked.stack)


if __name__ == "__main__":
    main()
