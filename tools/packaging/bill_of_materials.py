"""The SBOM in SPDX 2.3: what was built, the crates of this repository that are in it, and the toolchain's libraries."""

from __future__ import annotations

import hashlib
import json
import pathlib
import re
import sys
import time
from typing import Any

import archives
import facts

sys.path.insert(0, str(facts.ROOT / "platforms/portable"))
import translation  # noqa: E402 (the folder has to be known first)

# The licences that the packages contain, as the SPDX list names them.
LICENCES = {"Apache-2.0", "BSL-1.0", "MIT"}


def is_expression(text: str) -> bool:
    """Whether this is an SPDX expression over these licences."""
    shape = re.sub(r"[^() ]+", lambda word: "*" if word[0] in LICENCES else word[0].replace("*", "?"), text)
    while (shorter := re.sub(r"\(\*\)|\* (?:AND|OR) \*", "*", shape)) != shape:
        shape = shorter
    return shape == "*"


def crates_of(tops: list[str], crates: dict[str, list[str]]) -> dict[str, list[str]]:
    """These crates and all that they stand on, with what each uses. What crates.txt says of a kind isn't a library."""
    found: dict[str, list[str]] = {}
    waiting = list(tops)
    while waiting:
        name = waiting.pop()
        if name not in found:
            found[name] = crates[name]
            waiting += [used for used in crates[name] if used in crates]
    return found


def identity(kind: str, name: str) -> str:
    """SPDX allows letters, digits, dots and hyphens in a name."""
    return f"SPDXRef-{kind}-" + name.replace("_", "-").replace("/", "-")


def package(kind: str, name: str, version: str, licence: str, copyright_text: str) -> dict[str, Any]:
    if licence != "NOASSERTION" and not is_expression(licence):
        sys.exit(f"packages: {name}: '{licence}' isn't an SPDX expression over {', '.join(sorted(LICENCES))}")
    return {
        "SPDXID": identity(kind, name),
        "name": name,
        "versionInfo": version,
        "downloadLocation": "NOASSERTION",
        "filesAnalyzed": False,
        "licenseConcluded": licence,
        "licenseDeclared": licence,
        "copyrightText": copyright_text,
    }


def ported(library: facts.Library) -> dict[str, Any]:
    """A library of the toolchain, as far as the toolchain describes it."""
    name, version, licence = (word if word != "-" else "NOASSERTION" for word in library)
    return package("library", name, version, licence, "NOASSERTION")


def translator() -> dict[str, Any]:
    """wasm2c, which writes code of its own around what it translates into C."""
    return package(
        "tool", "wabt", translation.WASM2C, "Apache-2.0", "2016-2023 WebAssembly Community Group participants"
    )


def relation(one: str, kind: str, other: str) -> dict[str, str]:
    return {"spdxElementId": one, "relationshipType": kind, "relatedSpdxElement": other}


def built_files() -> list[dict[str, Any]]:
    """The files of dist/ that are in the packages, with their checksums."""
    files = []
    for folder in [facts.NATIVE, facts.ARM, facts.WINDOWS, facts.WEB, facts.VECTORS]:
        for path in sorted(folder.rglob("*")):
            if path.is_file():
                files.append(built_file(path))
    return files


def built_file(path: pathlib.Path) -> dict[str, Any]:
    name, data = path.relative_to(facts.DIST).as_posix(), path.read_bytes()
    sums = {"SHA1": hashlib.sha1(data).hexdigest(), "SHA256": hashlib.sha256(data).hexdigest()}
    return {
        "SPDXID": identity("file", name),
        "fileName": f"./{name}",
        "checksums": [{"algorithm": kind, "checksumValue": value} for kind, value in sums.items()],
        "licenseConcluded": facts.licence(),
        "copyrightText": facts.COPYRIGHT,
    }


def origins(files: list[dict[str, Any]]) -> list[dict[str, str]]:
    """Of which crate each built file is. The loader and the page are sources of their own."""
    relations = []
    for file in files:
        is_program = file["fileName"].endswith(("-linux/bcs", "-windows/bcs.exe", "/bcs_program.wasm"))
        relations.append(relation("SPDXRef-package-bcs", "CONTAINS", file["SPDXID"]))
        if is_program or file["fileName"].endswith((".a", ".so", ".dll", ".wasm", ".wasm.gz")):
            crate = identity("crate", "bcs" if is_program else "bcs_c")
            relations.append(relation(file["SPDXID"], "GENERATED_FROM", crate))
    return relations


def uses(crates: dict[str, list[str]], libraries: set[str]) -> list[dict[str, str]]:
    relations = []
    for name, used in crates.items():
        for other in used:
            if other not in crates and other not in libraries:
                sys.exit(f"packages: {name} uses {other}, which dist/LIBRARIES doesn't name")
            kind = "crate" if other in crates else "library"
            relations.append(relation(identity("crate", name), "DEPENDS_ON", identity(kind, other)))
    return relations


def document() -> dict[str, Any]:
    crates, libraries = crates_of(["bcs", "bcs_c"], facts.own_crates()), facts.libraries()
    whole = package("package", "bcs", facts.version(), facts.licence(), facts.COPYRIGHT)
    own = [package("crate", name, facts.version(), facts.licence(), facts.COPYRIGHT) for name in sorted(crates)]
    taken = [*map(ported, libraries), translator()]
    files = built_files()
    relations = [relation("SPDXRef-DOCUMENT", "DESCRIBES", whole["SPDXID"]), *origins(files)]
    relations += [relation(whole["SPDXID"], "CONTAINS", library["SPDXID"]) for library in taken]
    checksum = hashlib.sha256((facts.DIST / "SHA256SUMS").read_bytes()).hexdigest()
    return {
        "spdxVersion": "SPDX-2.3",
        "dataLicense": "CC0-1.0",
        "SPDXID": "SPDXRef-DOCUMENT",
        "name": f"bcs-{facts.version()}",
        "documentNamespace": f"urn:bcs:{facts.version()}:sha256:{checksum}",
        "creationInfo": {
            "created": time.strftime("%Y-%m-%dT%H:%M:%SZ", time.gmtime(facts.EPOCH)),
            "creators": ["Organization: the bcs authors", "Tool: tools/packages.py"],
        },
        "packages": [whole, *own, *taken],
        "files": files,
        "relationships": relations + uses(crates, {library.name for library in libraries}),
    }


def make() -> archives.File:
    return archives.text(json.dumps(document(), indent=1) + "\n")
