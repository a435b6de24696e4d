"""The parts `library` and `stack`: the C libraries."""

import re

from emulator import C, EMULATOR, ROOT, Bench, fail, passed, rows, run, words

READELF = "aarch64-linux-gnu-readelf"
NM = "aarch64-linux-gnu-nm"
# What the objects of the static library need of each other.
INTERNAL = re.compile("bcs_c_[a-z_]*|rattle_(alloc|realloc|dealloc)")
OBJDUMP = "aarch64-linux-gnu-objdump"


def test_library(bench: Bench) -> None:
    libraries_export_the_header(bench)
    libraries_need_old_glibc(bench)
    calls_of_c(bench)
    static = bench.compile("driver", "-static", C / "tests/driver.c", bench.built / "libbcs.a")
    dynamic = bench.compile("dynamic", C / "tests/driver.c", bench.built / "libbcs.so")
    library_path = bench.room / "lib"
    library_path.mkdir()
    (library_path / "libbcs.so.0").symlink_to(bench.built / "libbcs.so")
    rows("by the functions of bcs.h", "arm64", *EMULATOR, static)
    command = words(*EMULATOR, "-E", f"LD_LIBRARY_PATH={library_path}", dynamic, "handle")
    rows("by bcs_ask of libbcs.so", "--without", "changes", "arm64-handles", *command)


def test_stack(bench: Bench) -> None:
    output = bench.test_of_c("stack", "libbcs.a", "threads", str(ROOT / "examples"))
    lines = output.splitlines()
    if not lines:
        fail("tests/stack.c of the C library prints nothing")
    for line in lines:
        passed(re.sub("^stack: ", "deep values on a stack of ", line))


def libraries_export_the_header(bench: Bench) -> None:
    header = (C / "include/bcs.h").read_text(encoding="utf-8")
    declared = sorted(re.findall(r"^(?:bcs_answer |void |uint32_t |const char \*)(bcs_[a-z_]*)\(", header, re.M))
    static = run("nm", [NM, "-g", "--defined-only", f"{bench.built}/libbcs.a"])
    dynamic = run("nm", [NM, "-D", "--defined-only", f"{bench.built}/libbcs.so"])
    exported = re.findall(r".* [A-Z] (.*)", static)
    if not declared or sorted(name for name in exported if not INTERNAL.fullmatch(name)) != declared:
        fail(f"the static library doesn't export exactly the header's calls:\n{static}")
    if sorted(re.findall(r".* (bcs_.*)@@BCS_0$", dynamic, re.MULTILINE)) != declared:
        fail(f"the dynamic library doesn't export exactly the header's calls:\n{dynamic}")
    passed(f"the libraries export the header's {len(declared)} calls")


def libraries_need_old_glibc(bench: Bench) -> None:
    """The first glibc for arm64 was 2.17."""
    for name, expected in {
        "bcs": [("NEEDED", "libc.so.6")],
        "libbcs.so": [("NEEDED", "libc.so.6"), ("SONAME", "libbcs.so.0")],
    }.items():
        symbols = run("objdump", [OBJDUMP, "-T", f"{bench.built}/{name}"])
        versions = set(re.findall(r"GLIBC_[0-9.]*", symbols))
        if versions != {"GLIBC_2.17"}:
            fail(f"{name} needs {' '.join(sorted(versions))}")
        dynamic = run("readelf", [READELF, "-d", f"{bench.built}/{name}"])
        found = re.findall(r"\((NEEDED|SONAME)\).*\[(.*)\]", dynamic)
        if found != expected:
            fail(f"{name} has {found}")
    passed("the program and libbcs.so need the C library alone, of any version for arm64")


def calls_of_c(bench: Bench) -> None:
    for name in "calls", "handles", "threads":
        bench.test_of_c(name, "libbcs.a")
    passed("the tests of each call, of handles, and of 40 threads on one handle")
    jobs = bench.test_of_c("memory", "libbcs.a").splitlines()
    if not jobs:
        fail("tests/memory.c of the C library prints no job")
    passed(f"each request for memory of {len(jobs)} jobs refused in turn, with libbcs.a over a heap of its own")
