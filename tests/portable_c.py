#!/usr/bin/env python3
"""Compiles and tests the package of C files: tests/portable_c.py [--all] DIST.

The package is made from a folder like dist/. Its own tests are run, and the rows of tests/rows. The gate does this for
x86-64 and arm64. --all adds more processors, compilers and options, and machines that the code must reject. Other
processors are emulated. Prints a line with what passed for each.
"""

from __future__ import annotations

import argparse
import os
import pathlib
import re
import shutil
import sys
import tempfile
from concurrent.futures import ProcessPoolExecutor
from typing import NamedTuple

import debian
from harness import (
    ROOT,
    Failed,
    Word,
    clean_up_on_sigterm,
    end_with,
    output_of_c_example,
    processor_seconds,
    refused,
    require_same,
    run,
)

# The number of rows that the program answers at least.
LEAST = 1535
# Two trials run at the same time.
LANES = 2
# The tests of the package that take little time in an emulator.
QUICK_TESTS = "tests/calls tests/handles"

NEEDED = {
    "/usr/bin/wasm2c": "wabt",
    "/usr/bin/make": "make",
    "/usr/bin/gcc": "gcc",
    "/usr/bin/aarch64-linux-gnu-gcc": "gcc-aarch64-linux-gnu",
    "/usr/aarch64-linux-gnu/include/stdio.h": "libc6-dev-arm64-cross",
    "/usr/bin/qemu-aarch64-static": "qemu-user-static",
}
NEEDED_FOR_ALL = {
    "/usr/bin/clang": "clang",
    "/usr/bin/cmake": "cmake",
    "/usr/bin/musl-gcc": "musl-tools",
    "/usr/bin/riscv64-linux-gnu-gcc": "gcc-riscv64-linux-gnu",
    "/usr/riscv64-linux-gnu/include/stdio.h": "libc6-dev-riscv64-cross",
    "/usr/bin/i686-linux-gnu-gcc": "gcc-i686-linux-gnu",
    "/usr/i686-linux-gnu/include/stdio.h": "libc6-dev-i386-cross",
    "/usr/bin/arm-linux-gnueabihf-gcc": "gcc-arm-linux-gnueabihf",
    "/usr/arm-linux-gnueabihf/include/stdio.h": "libc6-dev-armhf-cross",
    "/usr/bin/s390x-linux-gnu-gcc": "gcc-s390x-linux-gnu",
    "/usr/s390x-linux-gnu/include/stdio.h": "libc6-dev-s390x-cross",
}


class Trial(NamedTuple):
    """A compiler, its options, and the emulator that runs what it makes. EACH is n to ask the program every n-th row
    only, and to leave out the tests that take longest in an emulator."""

    name: str
    compiler: str
    flags: str
    emulator: str = ""
    each: int = 1


WARNINGS = "-O1 -Wall -Wextra -Werror"
X86_64 = Trial("x86-64", "gcc", WARNINGS)
ARM64 = Trial("arm64", "aarch64-linux-gnu-gcc -static", "-O1", "qemu-aarch64-static")
OTHERS = [
    Trial("x86-64-clang", "clang", WARNINGS),
    Trial("x86-64-gcc-O0", "gcc", "-O0"),
    Trial("x86-64-clang-O0", "clang", "-O0"),
    Trial("x86-64-gcc-O2", "gcc", "-O2"),
    Trial("x86-64-clang-O2", "clang", "-O2"),
    Trial("x86-64-sanitized", "clang", "-O1 -fsanitize=address,undefined -fno-sanitize-recover=all"),
    Trial("x86-64-musl", "musl-gcc -static -idirafter /usr/include -idirafter /usr/include/x86_64-linux-gnu", "-O1"),
    Trial("riscv64", "riscv64-linux-gnu-gcc -static", "-O1", "qemu-riscv64-static"),
    Trial("i386", "i686-linux-gnu-gcc -static", "-O1", "qemu-i386-static"),
    Trial("armhf", "arm-linux-gnueabihf-gcc -static", "-O1", "qemu-arm-static"),
]

# Stand-ins for Apple's headers, since their SDK isn't here.
APPLE_TARGETS = ["arm64-apple-macos11", "x86_64-apple-macos11", "arm64-apple-ios15"]
APPLE_HEADERS = ["math", "pthread", "setjmp", "stdlib", "string"]
APPLE_DECLARATIONS = """\
#include <stddef.h>
typedef struct _opaque_pthread_t *pthread_t;
typedef int sigjmp_buf[64];
pthread_t pthread_self(void);
void *pthread_get_stackaddr_np(pthread_t);
size_t pthread_get_stacksize_np(pthread_t);
int sigsetjmp(sigjmp_buf, int);
void siglongjmp(sigjmp_buf, int) __attribute__((noreturn));
void *malloc(size_t), *calloc(size_t, size_t), *realloc(void *, size_t);
void free(void *);
void *memcpy(void *, const void *, size_t), *memmove(void *, const void *, size_t), *memset(void *, int, size_t);
#define NAN __builtin_nanf("")
#define INFINITY __builtin_inff()
#define isnan(x) __builtin_isnan(x)
#define signbit(x) __builtin_signbit(x)
"""
CMAKE_APP = """\
cmake_minimum_required(VERSION 3.13)
project(app C)
add_subdirectory(../package bcs)
add_executable(app example.c)
target_link_libraries(app bcs)
"""


def keep_each_row(rows: pathlib.Path, each: int) -> None:
    """Deletes all rows of the program but every EACH-th; a line of another kind prepares the rows behind it."""
    kept, count = [], 0
    for line in rows.read_text(encoding="utf-8").splitlines(keepends=True):
        count += line.startswith("row")
        if not line.startswith("row") or count % each == 0:
            kept.append(line)
    rows.write_text("".join(kept), encoding="utf-8")


def test(trial: Trial, room: pathlib.Path) -> str:
    """Compiles the package, and runs its tests and the rows of the library."""
    folder = room / trial.name
    shutil.copytree(room / "package", folder)
    keep_each_row(folder / "tests/bcs.rows", trial.each)
    choice = [] if trial.each == 1 else [f"TESTS={QUICK_TESTS}"]
    options = [f"CC={trial.compiler}", f"CFLAGS={trial.flags}", f"EMULATOR={trial.emulator}", *choice]
    made = run("make", "-C", folder, *options, "test")
    passed = re.search(r"^rows: (\d+) passed, 0 failed$", made, flags=re.M)
    rows = int(passed[1]) if passed else 0
    if rows < LEAST // trial.each:
        raise Failed(f"the program answers {rows} rows, and not {LEAST // trial.each}")
    for script in "tests/host_streams.py", "tests/file_rights.py":
        run(sys.executable, script, *trial.emulator.split(), folder / "bcs")
    compiler = [*trial.compiler.split(), "-std=gnu11", *trial.flags.split(), f"-I{folder}/include"]
    run(*compiler, folder / "tests/driver.c", folder / "libbcs.a", "-pthread", "-o", folder / "driver")
    driver: list[Word] = [*trial.emulator.split(), folder / "driver", "handle"]
    asked = run(sys.executable, "tests/rows", "--without", "changes", "portable-c", *driver)
    run("tests/output_files.py", "--host", *trial.emulator.split(), folder / "bcs")
    shutil.rmtree(folder)
    return f"{rows} rows of the program; of the library {asked.splitlines()[-1]}"


def tested(trial: Trial, room: pathlib.Path) -> str:
    """The line of a trial. It runs in a process of its own, whose processor seconds are those of the trial."""
    before = processor_seconds()
    try:
        told = test(trial, room)
    except Failed as fault:
        last_lines = "\n".join(str(fault).splitlines()[-20:])
        raise Failed(f"{trial.name}: {last_lines}") from None
    return f"{trial.name}: {told}; {processor_seconds() - before:.0f} processor seconds"


def reject_other_machines(room: pathlib.Path) -> str:
    """A compiler for a machine that the C code isn't for must report that."""
    for name in ["bcs", "bcs_library"]:
        words = ["s390x-linux-gnu-gcc", "-std=gnu11", "-fsyntax-only", f"-I{room}/package/include"]
        refused(*words, room / f"package/{name}.c", reason="error.*little-endian machines only")
    return "s390x: rejected, as it must be"


def check_for_apple(room: pathlib.Path) -> str:
    headers = room / "apple"
    headers.mkdir()
    (headers / "all.h").write_text(APPLE_DECLARATIONS)
    for name in APPLE_HEADERS:
        (headers / f"{name}.h").write_text('#include "all.h"\n')
    for target in APPLE_TARGETS:
        includes = ["-ffreestanding", "-nostdlibinc", "-isystem", str(headers), f"-I{room}/package/include"]
        words = ["clang", f"--target={target}", "-std=gnu11", *includes, "-Wall", "-Wextra", "-Werror", "-fsyntax-only"]
        run(*words, room / "package/bcs_library.c")
    return "macOS, iOS: the library passes clang's syntax check, with stand-ins for Apple's headers"


def make_with_cmake(room: pathlib.Path) -> str:
    """The library for arm64, as a program's own CMakeLists.txt has it made."""
    app = room / "app"
    app.mkdir()
    shutil.copy(room / "package/example.c", app)
    (app / "CMakeLists.txt").write_text(CMAKE_APP)
    target = ["-DCMAKE_SYSTEM_NAME=Linux", "-DCMAKE_C_COMPILER=aarch64-linux-gnu-gcc", "-DCMAKE_BUILD_TYPE=Debug"]
    run("cmake", "-S", app, "-B", app / "made", *target)
    run("cmake", "--build", app / "made")
    printed = run("qemu-aarch64-static", "-L", "/usr/aarch64-linux-gnu", app / "made/app")
    require_same("example.c, made by CMake,", printed, output_of_c_example())
    return "example.c, made by CMake for arm64"


def fail_allocations(room: pathlib.Path) -> str:
    """Out of memory, with a linker that can replace malloc."""
    includes = [f"-I{room}/package/include", "-Ibindings/c/tests"]
    sanitizers, library = "-fsanitize=address,undefined", room / "library.o"
    run("gcc", "-std=gnu11", "-O1", sanitizers, "-c", *includes, room / "package/bcs_library.c", "-o", library)
    wraps = "-Wl,--wrap=malloc,--wrap=calloc,--wrap=realloc,--wrap=free"
    tests = "platforms/portable/tests/memory.c"
    run("gcc", "-std=gnu11", "-O1", *includes, wraps, tests, library, sanitizers, "-pthread", "-o", room / "memory")
    return run(room / "memory").strip()


def make_package(dist: pathlib.Path, room: pathlib.Path) -> None:
    run("tools/packaging/c_package.py", dist, room / "package")
    shutil.copy(ROOT / "bindings/c/tests/driver.c", room / "package/tests")


def test_everything(room: pathlib.Path, is_all: bool) -> None:
    trials = [X86_64, ARM64, *OTHERS] if is_all else [X86_64, ARM64._replace(each=8)]
    with ProcessPoolExecutor(LANES) as lanes:
        try:
            for line in lanes.map(tested, trials, [room] * len(trials)):
                print(f"portable-c: {line}", flush=True)
        finally:
            lanes.shutdown(wait=False, cancel_futures=True)
    for more in [reject_other_machines, check_for_apple, make_with_cmake, fail_allocations] if is_all else []:
        print(f"portable-c: {more(room)}", flush=True)


def main() -> None:
    parser = argparse.ArgumentParser(description=__doc__, allow_abbrev=False)
    parser.add_argument("--all", action="store_true")
    parser.add_argument("dist", type=pathlib.Path)
    args = parser.parse_args()
    os.environ["PYTHONDONTWRITEBYTECODE"] = "1"
    clean_up_on_sigterm()
    debian.install(NEEDED | NEEDED_FOR_ALL if args.all else NEEDED)
    with tempfile.TemporaryDirectory() as folder:
        make_package(args.dist.resolve(), pathlib.Path(folder))
        test_everything(pathlib.Path(folder), args.all)


if __name__ == "__main__":
    end_with(main)
