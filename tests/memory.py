#!/usr/bin/env python3
"""Runs proved programs with each of their requests for memory refused in turn, one per run.

They are `test_codec` and `test_jobs`, over the rows of their memory.rows, and `bcs`, at the jobs of
tests/memory_jobs.py. The first two are asked rows on values that take much memory or stack, too. All must be there as
`rt ci` or `rt run` left them. Nothing is left behind.
"""

import os
import pathlib
import resource
import subprocess
import sys
import tempfile
from concurrent.futures import ThreadPoolExecutor

from harness import ROOT, Failed, end_with
from memory_jobs import FILES, JOBS
from memory_of_program import Program

BCS = ROOT / "crates/bcs/out/bcs"
TESTS = ("test_codec", "test_jobs")
STACK = 8 << 20


def build_refuser(room: pathlib.Path) -> str:
    """Uses the toolchain's own compiler, so that no other is needed."""
    page = subprocess.run(["rt", "doc"], stdout=subprocess.PIPE, text=True, check=True).stdout.rstrip("\n")
    tools = pathlib.Path(page).parent / "toolchain/bin"
    library, code = room / "refuse.so", room / "refuse.o"
    subprocess.run([tools / "clang", "-O2", "-fPIC", "-c", "tests/refuse.c", "-o", code], check=True)
    subprocess.run([tools / "ld.lld", "-shared", code, "-o", library], check=True)
    return str(library)


def set_stack() -> None:
    resource.setrlimit(resource.RLIMIT_STACK, (STACK, STACK))


def ask_large_rows(crate: str) -> None:
    """Rows that take more time or stack than the gate gives a program."""
    folder = ROOT / "crates" / crate
    table = (folder / "large.rows").read_text(encoding="utf-8")
    asked = "".join(line.partition(" -> ")[0] + "\n" for line in table.splitlines())
    ended = subprocess.run(
        [folder / "out" / crate], input=asked, stdout=subprocess.PIPE, encoding="utf-8", preexec_fn=set_stack
    )
    if ended.returncode != 0 or ended.stdout != table:
        raise Failed(f"the rows of crates/{crate}/large.rows: status {ended.returncode}")
    print(f"memory: {table.count(' -> ')} rows of large and of deep values", flush=True)


def sweep_program(refuser: str, room: pathlib.Path) -> None:
    for name, data in FILES.items():
        (room / name).write_bytes(data)
    program = Program(str(BCS), refuser, str(room / "number"))
    placed = [
        job._replace(words=[f"{room}/{word[1:]}" if word.startswith("@") else word for word in job.words])
        for job in JOBS
    ]
    with ThreadPoolExecutor(os.cpu_count()) as lanes:
        for told in lanes.map(program.sweep, placed):
            print("\n".join(told), flush=True)


def main() -> None:
    os.chdir(ROOT)
    with tempfile.TemporaryDirectory() as folder:
        room = pathlib.Path(folder)
        refuser = build_refuser(room)
        for crate in TESTS:
            if subprocess.run([sys.executable, "tests/memory_of_calls.py", refuser, crate]).returncode != 0:
                sys.exit(1)
            ask_large_rows(crate)
        sweep_program(refuser, room)


if __name__ == "__main__":
    end_with(main)
