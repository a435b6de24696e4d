#!/usr/bin/env python3
"""tools/packages.py FOLDER: makes the packages in FOLDER from dist/ and bindings/, without the toolchain.

    bcs_VERSION_amd64.deb           the program, its manual and its completions
    libbcs-dev_VERSION_amd64.deb    the C library, its header, and the file for pkg-config
    python3-bcs-proved_VERSION_amd64.deb    the Python module with the library in it
    .._arm64.deb                    the same three for arm64
    bcs_proved-VERSION-..whl        the Python module with the library in it, for pip: for Linux on x86-64 and arm64,
                                    and for Windows
    bcs_proved-VERSION.tar.gz       the same with the library in C, which pip compiles on other systems
    bcs-proved-VERSION.tgz          the module for Node and browsers, and its command, for npm
    bcs-proved-VERSION.crate        the crate for Rust with the library in it; unpacked, for cargo add --path
    bcs-go-VERSION.tar.gz           the module for Go with the library in it, as a folder for GOPROXY=file://
    bcs-VERSION-c.tar.xz            the program and the library in C, for all other systems with POSIX
    bcs-VERSION.tar.xz              all of it, to be used where it is unpacked
    bcs-VERSION.spdx.json           the components of all that, with their licences
    SHA256SUMS                      the checksums of these

It refuses a dist/ that is damaged, older than the sources, or neither signed nor as in the last commit. A second run
makes the same bytes. The files in the packages have the time SOURCE_DATE_EPOCH, if that is set. Nothing is published.
It needs Debian 12 on x86-64, Python 3.11, and wasm2c 1.0.32, which is in the package wabt.
"""

from __future__ import annotations

import hashlib
import os
import pathlib
import sys
from collections.abc import Iterator

sys.dont_write_bytecode = True
sys.path.insert(0, str(pathlib.Path(__file__).resolve().parent.parent / "tools/packaging"))
import bill_of_materials  # noqa: E402 (the folder has to be known first)
import c_package  # noqa: E402
import debian_packages  # noqa: E402
import facts  # noqa: E402
import go_module  # noqa: E402
import node_package  # noqa: E402
import python_sdist  # noqa: E402
import python_wheel  # noqa: E402
import rust_crate  # noqa: E402
import tarball  # noqa: E402


def made() -> Iterator[tuple[str, bytes]]:
    """The packages with their names, each as soon as it is made, and their checksums last."""
    bill = bill_of_materials.make()
    yield f"bcs-{facts.version()}.spdx.json", bill.data
    for kind in [debian_packages, python_wheel, python_sdist, node_package, rust_crate, go_module, c_package, tarball]:
        yield from kind.make(bill).items()


def main() -> None:
    if len(sys.argv) != 2 or sys.argv[1].startswith("-"):
        sys.exit(__doc__)
    facts.require_dist()
    os.umask(0o022)
    folder = pathlib.Path(sys.argv[1])
    folder.mkdir(parents=True, exist_ok=True)
    # An older file would vouch for packages that are not there yet.
    sums = folder / "SHA256SUMS"
    sums.unlink(missing_ok=True)
    lines: list[str] = []
    for name, data in made():
        (folder / name).write_bytes(data)
        lines.append(f"{hashlib.sha256(data).hexdigest()}  {name}\n")
        print(f"{len(data):9} {folder / name}", flush=True)
    sums.write_text("".join(sorted(lines, key=lambda line: line[66:])), encoding="ascii")
    print(f"{sums.stat().st_size:9} {sums}")


if __name__ == "__main__":
    main()
