#!/usr/bin/env python3
"""Makes the packages, and installs and uses each one like a user without the toolchain, in a bare Debian.

Prints a line for each part, with its seconds. A part that this machine can't run is skipped, and its line says why;
with CI=true in the environment that is a failure. Everything happens in a copy of the repository. If dist/ is older
than the sources, the copy has the files of out/dist, which the gate has built.
"""

from __future__ import annotations

import os
import pathlib
import shutil
import subprocess
import sys
import tempfile
import time
from collections.abc import Callable
from typing import NamedTuple

import debian
import packages_installed as installed
import packages_made as made
from packages_made import Rooms
from harness import Failed, clean_up_on_sigterm, run

# Why something that a part needs can't be had; nothing if it is there.
Need = Callable[[Rooms], str]


def has(needed: dict[str, str]) -> Need:
    """Programs or files, with the packages of Debian that have them."""

    def need(_: Rooms) -> str:
        try:
            debian.install(needed)
        except SystemExit as fault:
            return str(fault)
        return ""

    return need


def bare_debian(*kinds: str) -> Need:
    """Bare Debians, which are unpacked for the first part that needs them."""

    def need(rooms: Rooms) -> str:
        if os.geteuid() != 0:
            return "a bare Debian needs root"
        return has({"debootstrap": "debootstrap", "unshare": "util-linux"})(rooms) or unpacked(kinds, rooms)

    return need


def unpacked(kinds: tuple[str, ...], rooms: Rooms) -> str:
    for kind in kinds:
        if rooms.debian(kind).exists():
            continue
        start = time.monotonic()
        try:
            run("tests/unpack_debian.sh", kind, rooms.debian(kind))
        except Failed as fault:
            shutil.rmtree(rooms.debian(kind), ignore_errors=True)
            return f"Debian can't be had: {str(fault)[-1000:]}"
        print(f"packages: Debian 12, {kind}: {time.monotonic() - start:.1f} s", flush=True)
    return ""


def cargo(_: Rooms) -> str:
    return "" if shutil.which("cargo") else "there is no cargo"


class Part(NamedTuple):
    """What is tried. Its function returns what to print, or raises Failed."""

    name: str
    test: Callable[[Rooms], str]
    needs: tuple[Need, ...] = ()


SCRIPTS = bare_debian("plain", "scripts")
YAML = has({installed.PYYAML: "python3-yaml"})
SETUPTOOLS = {
    "/usr/lib/python3/dist-packages/setuptools": "python3-setuptools",
    "/usr/lib/python3/dist-packages/wheel": "python3-wheel",
    "/usr/lib/python3.11/ensurepip": "python3-venv",
    "gcc": "gcc",
}
ARM64_TOOLS = {
    "qemu-aarch64-static": "qemu-user-static",
    "aarch64-linux-gnu-gcc": "gcc-aarch64-linux-gnu",
    "/usr/aarch64-linux-gnu/include/stdio.h": "libc6-dev-arm64-cross",
    "pkg-config": "pkg-config",
}
CRATES = {"/usr/share/cargo/registry": "librust-serde-json-dev"}
PARTS = [
    Part("the files of dist/", made.copy_repository),
    Part("the licence and the version", made.agree_on_licence_and_version),
    Part("the packages", made.make_twice),
    Part("a changed byte", made.refuse_damage),
    Part("the bill of materials", made.check_bill, (has({made.SPDX_LICENCES: "node-spdx-license-ids"}),)),
    Part("the packages of Debian", made.check_debian_packages, (has({"lintian": "lintian"}),)),
    Part("the wheels, by twine", made.check_wheels, (has({"twine": "twine"}),)),
    Part("the manual", made.check_manual, (has({"man": "man-db"}),)),
    Part("the program, from its package", installed.install_program, (SCRIPTS,)),
    Part("a clone in a bare Debian", installed.answer_in_clone, (SCRIPTS,)),
    Part("its ./test", installed.test_plain_clone, (SCRIPTS,)),
    Part("its ./test, with Python and Node", installed.test_clone_with_scripts, (SCRIPTS,)),
    Part("the wheel", installed.install_wheel, (SCRIPTS, YAML)),
    Part("the module, from its package of Debian", installed.install_debian_module, (SCRIPTS,)),
    Part("the wheel for Windows", installed.install_wheel_for_windows, (SCRIPTS,)),
    Part("the package for Node", installed.install_node_package, (SCRIPTS, YAML)),
    Part("the tarball", installed.unpack_tarball, (SCRIPTS, YAML)),
    Part("the packages for arm64", installed.emulate_arm64, (SCRIPTS, has(ARM64_TOOLS))),
    Part("the library for C", installed.install_c_library, (bare_debian("compiler"),)),
    Part("the files of C", made.compile_c_files, (has({"gcc": "gcc"}),)),
    Part("the source package for pip", installed.install_source_package, (has(SETUPTOOLS),)),
    Part("the crate for Rust", installed.use_crate, (cargo, has(CRATES))),
]


def reason_to_skip(part: Part, rooms: Rooms) -> str:
    """The first need that isn't met."""
    return next((reason for need in part.needs if (reason := need(rooms))), "")


def test(part: Part, rooms: Rooms) -> None:
    start = time.monotonic()
    told = part.test(rooms).strip().splitlines()[-1:]
    print(f"packages: {part.name}: {time.monotonic() - start:.1f} s: {''.join(told)}", flush=True)


def test_all(rooms: Rooms) -> None:
    debian.install({"wasm2c": "wabt"})
    skipped = 0
    for part in PARTS:
        try:
            if reason := reason_to_skip(part, rooms):
                # Anyone's machine may lack something, but CI tries everything.
                if os.environ.get("CI") == "true":
                    raise Failed(reason)
                print(f"packages: not tried: {part.name}: {reason}", flush=True)
                skipped += 1
            else:
                test(part, rooms)
        except Failed as fault:
            sys.exit(f"{fault}\npackages: FAILED: {part.name}")
    print(f"packages: passed, {skipped} not tried")


def main() -> None:
    os.environ["PYTHONDONTWRITEBYTECODE"] = "1"
    clean_up_on_sigterm()
    top = pathlib.Path(tempfile.mkdtemp())
    try:
        test_all(Rooms(top))
    finally:
        # not shutil.rmtree, which would also delete what is mounted there
        subprocess.run(["rm", "-rf", "--one-file-system", str(top)], check=True)


if __name__ == "__main__":
    main()
