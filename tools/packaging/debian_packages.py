"""The packages for Debian: `bcs` with the program, `libbcs-dev` with the libraries, and `python3-bcs-proved`."""

from __future__ import annotations

import email.utils
import hashlib
import os
import pathlib
import subprocess
import tempfile
import textwrap

import archives
import facts
import installed
import python_wheel

DESCRIPTION = """\
It encodes, decodes, explains and compares values of Binary Canonical
Serialization (BCS), which the Diem family of chains signs and hashes. A
serde-reflection registry in JSON says which formats there are. The code is
proved against its contracts.
"""
LIBRARY_DESCRIPTION = """\
The same calls for C: the header, a static and a dynamic library, and what
pkg-config has to know.
"""
PYTHON_DESCRIPTION = """\
The same calls for Python, with test vectors for a registry by python3 -m
bcs_proved.vectors, and types of its values by python3 -m bcs_proved.types.
"""
# (how many threads compress decides what comes out)
BUILD = ["dpkg-deb", "--root-owner-group", "--threads-max=1", "-Zxz", "-z9", "--build"]
# Debian's name of a licence where it is another, and the text where Debian has it already.
DEBIAN_NAMES = {"MIT": "Expat"}
KNOWN_TEXTS = {"Apache-2.0": "On Debian systems the text is in\n/usr/share/common-licenses/Apache-2.0.\n"}


def described(
    machine: facts.Machine, name: str, section: str, summary: str, description: str, files: archives.Files
) -> str:
    glibc = ".".join(
        str(part) for part in facts.glibc_needed(machine.folder / ("bcs" if name == "bcs" else "libbcs.so"))
    )
    recommends = "Recommends: python3, python3-yaml\n" if name == "bcs" else ""
    size = sum(len(file.data) + 1023 for file in files.values()) // 1024
    python = ", python3 (>= 3.9)" if section == "python" else ""
    return (
        f"Package: {name}\nVersion: {facts.version()}\nArchitecture: {machine.debian}\nMaintainer: {facts.MAINTAINER}\n"
        f"Installed-Size: {size}\nDepends: libc6 (>= {glibc}){python}\n{recommends}Section: {section}\n"
        "Priority: optional\n"
        f"Description: {summary}\n{textwrap.indent(description, ' ')}"
    )


def terms(word: str, file: str) -> str:
    """The text of a licence, in which an empty line is a dot."""
    text = KNOWN_TEXTS.get(word) or (facts.ROOT / file).read_text(encoding="utf-8")
    lines = "".join(f" {line or '.'}\n" for line in text.splitlines())
    return f"License: {DEBIAN_NAMES.get(word, word)}\n{lines}"


def copyright_file() -> str:
    """What licence the code is under, and which libraries of the toolchain are in it, with theirs."""
    expression = facts.licence().replace(" OR ", " or ").replace(" AND ", " and ")
    for word, name in DEBIAN_NAMES.items():
        expression = expression.replace(word, name)
    ports = "".join(f" {library}\n" for library in facts.libraries())
    return (
        "Format: https://www.debian.org/doc/packaging-manuals/copyright-format/1.0/\nUpstream-Name: bcs\n"
        "Comment: These libraries of the toolchain are in the code, with the licences\n"
        f" of what they are ports of:\n{ports}\n"
        f"Files: *\nCopyright: {facts.COPYRIGHT}\nLicense: {expression}\n\n"
        + "\n".join(terms(word, file) for word, file in facts.licence_files().items())
    )


def changelog(name: str) -> str:
    version, date = facts.version(), email.utils.formatdate(facts.EPOCH)
    return (
        f"{name} ({version}) unstable; urgency=medium\n\n  * What bcs {version} has.\n\n"
        f" -- {facts.MAINTAINER}  {date}\n"
    )


def papers(name: str, bill: archives.File) -> archives.Files:
    """What each package of Debian has in its folder of documents."""
    folder = f"usr/share/doc/{name}"
    return {
        f"{folder}/copyright": archives.text(copyright_file()),
        f"{folder}/changelog.gz": archives.File(archives.gzipped(changelog(name).encode())),
        f"{folder}/bcs.spdx.json.gz": archives.File(archives.gzipped(bill.data)),
    }


def library_files(machine: facts.Machine) -> archives.Files:
    """Libraries where Debian has them: in the folder of the machine's kind, and the dynamic one not executable."""
    folder = f"{machine.processor}-linux-gnu"
    files = {}
    for name, file in installed.files("/usr", "--library", "--no-record", machine=machine).items():
        if name.endswith("/bcs.pc"):
            file = archives.text(file.data.decode().replace("}/lib\n", f"}}/lib/{folder}\n"))
        files[name.replace("usr/lib/", f"usr/lib/{folder}/")] = file._replace(is_program=False)
    return files


def python_files(machine: facts.Machine) -> archives.Files:
    """The module with its library in it, which it loads from there."""
    files = python_wheel.module(machine.folder / "libbcs.so")
    return {f"usr/lib/python3/dist-packages/{name}": file._replace(is_program=False) for name, file in files.items()}


def package(
    machine: facts.Machine, name: str, control: str, files: archives.Files, more: dict[str, str]
) -> dict[str, bytes]:
    sums = [f"{hashlib.md5(files[path].data).hexdigest()}  {path}\n" for path in sorted(files) if not files[path].link]
    papers = {"control": control, "md5sums": "".join(sums), **more}
    packed = {f"DEBIAN/{path}": archives.text(content) for path, content in papers.items()}
    with tempfile.TemporaryDirectory() as top:
        folder, made = pathlib.Path(top, "package"), pathlib.Path(top, "made")
        archives.write(files | packed, folder)
        subprocess.run([*BUILD, folder, made], env=os.environ | {"SOURCE_DATE_EPOCH": str(facts.EPOCH)}, check=True)
        return {f"{name}_{facts.version()}_{machine.debian}.deb": made.read_bytes()}


def make_for(machine: facts.Machine, bill: archives.File) -> dict[str, bytes]:
    program = installed.files("/usr", "--program", "--no-record", machine=machine) | papers("bcs", bill)
    control = described(machine, "bcs", "utils", facts.SUMMARY, DESCRIPTION, program)
    made = package(machine, "bcs", control, program, {})
    library = library_files(machine) | papers("libbcs-dev", bill)
    summary = f"{facts.SUMMARY} (libraries for C)"
    control = described(machine, "libbcs-dev", "libdevel", summary, LIBRARY_DESCRIPTION, library)
    # The system's cache of libraries is made anew, so that programs find the dynamic one.
    more = {"triggers": "activate-noawait ldconfig\n", "shlibs": f"libbcs 0 libbcs-dev (>= {facts.version()})\n"}
    made |= package(machine, "libbcs-dev", control, library, more)
    module = python_files(machine) | papers("python3-bcs-proved", bill)
    summary = f"{facts.SUMMARY} (Python)"
    control = described(machine, "python3-bcs-proved", "python", summary, PYTHON_DESCRIPTION, module)
    return made | package(machine, "python3-bcs-proved", control, module, {})


def make(bill: archives.File) -> dict[str, bytes]:
    return {name: data for machine in facts.MACHINES for name, data in make_for(machine, bill).items()}
