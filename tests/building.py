#!/usr/bin/env python3
"""Tests tools/build.py with small crates: `--check`, and what `--unproved` compiles and where it writes."""

from __future__ import annotations

import ctypes
import pathlib
import shutil
import subprocess
import sys
import tempfile

from harness import ROOT, fail, passed, ran

sys.path.insert(0, str(ROOT / "tools"))

import toolchain  # noqa: E402
import unproved  # noqa: E402

# A library, a crate above it, and a library of C with a result of more than 16 bytes and without a result.
SOURCES = {
    "crates.txt": "lower:\nupper: lower\nexports staticlib:\n",
    "crates/lower/src/lib.rt": """//! Below.
#![tactic(auto)]

ghost use Rattle.std.specs.Prelude.{◌≡◌};

/// The number.
pub fn same(x: u32) -> u32
    ensures { result ≡ x }
{
    x
}
""",
    "crates/upper/src/lib.rt": """//! Above.
#![tactic(auto)]

ghost use Rattle.std.specs.Prelude.{◌≡◌};

/// The number.
pub fn again(x: u32) -> u32
    ensures { result ≡ x }
{
    lower::same(x)
}
""",
    "crates/exports/src/lib.rt": "//! For C.\n#![tactic(auto)]\n\nmod calls;\n",
    "crates/exports/src/calls.rt": """//! The calls.

/// Three numbers.
#[repr(C)]
#[derive(Clone, Copy)]
pub struct Three {
    first: u64,
    second: u64,
    third: u64,
}

#[unsafe(no_mangle)]
pub extern "C" fn three(bytes: &[u8], second: u32) -> Three {
    Three { first: bytes.len() as u64, second: u64::from(second), third: 3 }
}

#[unsafe(no_mangle)]
pub extern "C" fn set_first(bytes: &mut [u8]) {
    if let [first, ..] = bytes {
        *first = 7;
    }
}
""",
}


class Three(ctypes.Structure):
    _fields_ = [(name, ctypes.c_uint64) for name in ("first", "second", "third")]


def refused(folder: pathlib.Path) -> bool:
    """Whether nothing is built in the folder, and nothing is written there."""
    before = sorted(folder.rglob("*")) if folder.exists() else None
    words = [sys.executable, str(ROOT / "tools/build.py"), "--unproved", str(folder)]
    ended = subprocess.run(words, capture_output=True, text=True)
    after = sorted(folder.rglob("*")) if folder.exists() else None
    return ended.returncode == 1 and "choose another folder" in ended.stderr and before == after


def test_folders(room: pathlib.Path) -> None:
    """What ./bcs, `dist/` and packages take is never replaced by code without proofs."""
    used = room / "used"
    used.mkdir()
    (used / "bcs").write_text("proved\n", encoding="ascii")
    new = [ROOT / it / "unproved" for it in ("crates/bcs/out", "dist", "out/dist")]
    for folder in [used, ROOT / "crates/bcs/out", ROOT / "dist/x86_64-linux", ROOT / "out/dist", *new]:
        if not refused(folder):
            fail(f"--unproved writes to {folder}")
    passed("--unproved doesn't write where proved files are")


def test_unproved(room: pathlib.Path) -> None:
    [crate] = toolchain.crates(toolchain.ROOT / "crates/exports")
    archive, library = room / "libexports.a", room / "libexports.so"
    unproved.make_archive(crate, archive)
    subprocess.run(
        ["gcc", "-shared", "-Wl,--whole-archive", archive, "-Wl,--no-whole-archive", "-o", library], check=True
    )
    calls = ctypes.CDLL(str(library))
    calls.three.restype = Three
    answer = calls.three(b"abcde", ctypes.c_size_t(5), ctypes.c_uint32(2))
    given = ctypes.create_string_buffer(b"\0\1")
    calls.set_first(given, ctypes.c_size_t(2))
    if [answer.first, answer.second, answer.third] != [5, 2, 3] or given.raw[:2] != b"\7\1":
        fail("a library without proofs gives wrong answers")
    if hasattr(calls, "main"):
        fail("a library without proofs exports main")
    passed("a library without proofs, with the calls of C")


def test_check(root: pathlib.Path) -> None:
    """The library below is built once. A wrong contract isn't proved."""
    made, source = root / "crates/lower/out/rlib/lower.rlib/format", root / "crates/upper/src/lib.rt"
    status, told = check(root)
    if status != 0 or "logic=proved" not in told:
        fail(f"--check doesn't prove a crate: {told}")
    before = made.stat().st_mtime_ns
    source.write_text(source.read_text(encoding="utf-8").replace("lower::same(x)", "7"), encoding="utf-8")
    status, told = check(root)
    if status != 1 or "did not prove `returns`" not in told:
        fail(f"--check proves a wrong contract, or says something else: {told}")
    if made.stat().st_mtime_ns != before:
        fail("--check builds a library again that is current")
    passed("--check proves a crate over libraries that are built once")


def check(root: pathlib.Path) -> tuple[int, str]:
    """The status of --check for the upper crate, and what it prints."""
    words = [sys.executable, "-B", str(root / "tools/build.py"), "--check", "upper"]
    ended = ran(*words, merged=True)
    return ended.returncode, ended.stdout


def make_crates(root: pathlib.Path) -> None:
    """Writes the crates, with the scripts that build the crates of the folder above them."""
    for name, text in SOURCES.items():
        file = root / name
        file.parent.mkdir(parents=True, exist_ok=True)
        file.write_text(text, encoding="utf-8")
    (root / "tools").mkdir()
    for name in ("build.py", "toolchain.py"):
        shutil.copy(ROOT / "tools" / name, root / "tools")


def main() -> None:
    sys.dont_write_bytecode = True
    with tempfile.TemporaryDirectory() as folder:
        room = pathlib.Path(folder)
        test_folders(room)
        toolchain.ROOT = room / "crates of the test"
        make_crates(toolchain.ROOT)
        test_unproved(room)
        test_check(toolchain.ROOT)


if __name__ == "__main__":
    main()
