#!/usr/bin/env python3
"""platforms/windows/tests/contents.py FOLDER: checks what bcs.exe, bcs.dll and bcs.lib in the folder export and import.

Also that each stack frame of a page or more is probed, and that the files say of each function how to leave it.
"""

from __future__ import annotations

import pathlib
import re
import subprocess
import sys

HERE = pathlib.Path(__file__).resolve().parent
HEADER = HERE.parents[2] / "bindings/c/include/bcs.h"
PROGRAMS = ["bcs.exe", "bcs.dll"]
# A frame that isn't probed is made in one step.
LARGE_STEP = re.compile(r"sub +\$0x[0-9a-f]{4,},%rsp")
PROBED_STEP = re.compile(r"sub +%rax,%rsp")
# .pdata has the entries of all functions, of which there are hundreds.
LEAST_TABLE = 0x1000


def told(tool: str, *words: str | pathlib.Path) -> str:
    command = [f"x86_64-w64-mingw32-{tool}", *map(str, words)]
    return subprocess.run(command, stdout=subprocess.PIPE, text=True, check=True).stdout


def expect_same(what: str, found: list[str], wanted: list[str]) -> None:
    if not wanted or sorted(found) != sorted(wanted):
        odd = sorted(set(found) ^ set(wanted))
        sys.exit(f"contents: FAILED: {what}: {len(found)}, and {len(wanted)} are declared; {', '.join(odd)}")


def declared_calls() -> list[str]:
    header = HEADER.read_text(encoding="utf-8")
    return re.findall(r"^(?:bcs_answer |void |uint32_t |const char \*)(bcs_[a-z_]*)\(", header, flags=re.M)


def exports(file: pathlib.Path) -> list[str]:
    table = told("objdump", "-p", file).partition("[Ordinal/Name Pointer] Table")[2].partition("\n\n")[0]
    return re.findall(r"^.*\] (.*)$", table, flags=re.M)


def imports(file: pathlib.Path) -> list[str]:
    """The imported functions, as `KERNEL32.dll ReadFile`."""
    found, dll = [], ""
    for line in told("objdump", "-p", file).splitlines():
        words = line.split()
        if words[:1] == ["DLL"]:
            dll = words[2] if len(words) > 2 else ""
        elif line.startswith(("The Export", "There is")):
            dll = ""
        elif dll and len(words) == 3 and re.fullmatch("[0-9a-f]+", words[0]) and words[1].isdecimal():
            found.append(f"{dll} {words[2]}")
    return found


def listed_imports() -> list[str]:
    """The functions that imports/ lists, in the same form."""
    found = []
    for name in "advapi32", "kernel32", "msvcrt":
        lines = (HERE.parent / f"imports/{name}.def").read_text(encoding="utf-8").splitlines()
        words = [line.split() for line in lines]
        (dll,) = [line[1] for line in words if line[:1] == ["LIBRARY"]]
        found += [f"{dll} {line[0]}" for line in words if line and line[0] not in ("LIBRARY", "EXPORTS")]
    return found


def check_frames(file: pathlib.Path) -> None:
    code = told("objdump", "-d", file).splitlines()
    probed = 0
    for before, line in zip(["", *code], code):
        if LARGE_STEP.search(line):
            sys.exit(f"contents: FAILED: {file.name} has a frame of a page or more that isn't probed: {line}")
        if PROBED_STEP.search(line):
            probed += 1
            if "call " not in before and not PROBED_STEP.search(before):
                sys.exit(f"contents: FAILED: {file.name} has a frame that isn't probed: {before}")
    if not probed:
        sys.exit(f"contents: FAILED: no frame of {file.name} is probed, so its code isn't read as it is written")


def check_table(file: pathlib.Path) -> None:
    size = re.search(r"^ *\d+ \.pdata +([0-9a-f]+) ", told("objdump", "-h", file), flags=re.M)
    if not size or int(size[1], 16) <= LEAST_TABLE:
        sys.exit(f"contents: FAILED: {file.name} doesn't say how to leave its functions")


def main() -> None:
    if len(sys.argv) != 2:
        sys.exit(__doc__)
    folder = pathlib.Path(sys.argv[1])
    calls, listed = declared_calls(), listed_imports()
    expect_same("exports of bcs.dll", exports(folder / "bcs.dll"), calls)
    names = re.findall(r"^.* T ([^.].*)$", told("nm", folder / "bcs.lib"), flags=re.M)
    expect_same("names in bcs.lib", names, calls)
    imported = {function for name in PROGRAMS for function in imports(folder / name)}
    expect_same("imports of bcs.exe and bcs.dll", list(imported), listed)
    for name in PROGRAMS:
        check_frames(folder / name)
        check_table(folder / name)
    print(f"{len(calls)} calls, and {len(listed)} functions of Windows")


if __name__ == "__main__":
    main()
