#!/usr/bin/env python3
"""tests/packages_bill.py BILL LICENCES: checks the SBOM with Debian's list of SPDX licences.

The names in it are unique, its relations lead from name to name, and each licence is a valid expression.
"""

from __future__ import annotations

import json
import pathlib
import re
import sys
from typing import Any

ROOT = pathlib.Path(__file__).resolve().parent.parent
sys.path.insert(0, str(ROOT / "tools/packaging"))
import bill_of_materials  # noqa: E402 (the folder has to be known first)

EXPRESSIONS = [
    "MIT",
    "MIT OR Apache-2.0",
    "(Apache-2.0 OR BSL-1.0) AND MIT",
    "((MIT))",
    "MIT AND (MIT OR (MIT AND BSL-1.0))",
]
NO_EXPRESSIONS = [
    "",
    "MIT OR Apache 2.0",
    "MIT or Apache-2.0",
    "MIT OR",
    "(MIT",
    "MIT)",
    "MIT/Apache-2.0",
    "MIT MIT",
    "GPL",
    "*",
    "* OR *",
    "MIT\n",
    "-",
]


def check_names(bill: dict[str, Any]) -> None:
    names = [part["SPDXID"] for part in [bill, *bill["packages"], *bill["files"]]]
    assert len(set(names)) == len(names) > 50, "names"
    assert all(re.fullmatch(r"SPDXRef-[A-Za-z0-9.-]+", name) for name in names), names
    ends = {relation[end] for relation in bill["relationships"] for end in ["spdxElementId", "relatedSpdxElement"]}
    assert ends <= set(names), ends - set(names)


def check_programs(bill: dict[str, Any]) -> None:
    """They are made from the crate of the program, and everything else that is built from that of the library."""
    names = {file["SPDXID"]: file["fileName"] for file in bill["files"]}
    from_program = [it for it in bill["relationships"] if it["relatedSpdxElement"] == "SPDXRef-crate-bcs"]
    made = {names.get(it["spdxElementId"]) for it in from_program if it["relationshipType"] == "GENERATED_FROM"}
    machines = ["aarch64-linux/bcs", "x86_64-linux/bcs", "x86_64-windows/bcs.exe"]
    assert made == {f"./{name}" for name in [*machines, "web/bcs_program.wasm"]}, made


def check_licences(bill: dict[str, Any], known: set[str]) -> int:
    """Returns how many licences there are."""
    own = [part for part in bill["packages"] if not part["SPDXID"].startswith(("SPDXRef-library-", "SPDXRef-tool-"))]
    licence = (ROOT / "tools/packaging/licence").read_text(encoding="utf-8").strip()
    assert own and all(part["licenseDeclared"] == licence for part in own), own
    assert len(known) > 400 and bill_of_materials.LICENCES <= known, bill_of_materials.LICENCES - known
    said = {part[key] for part in bill["packages"] for key in ["licenseDeclared", "licenseConcluded"]}
    said |= {file["licenseConcluded"] for file in bill["files"]}
    for licence in said - {"NOASSERTION"}:
        words = re.findall(r"[^() ]+", licence)
        assert set(words[::2]) <= known and set(words[1::2]) <= {"AND", "OR"}, licence
    return len(said)


def check_expressions() -> None:
    for licence in EXPRESSIONS:
        assert bill_of_materials.is_expression(licence), licence
    for licence in NO_EXPRESSIONS:
        assert not bill_of_materials.is_expression(licence), licence


def main() -> None:
    bill, known = (json.loads(pathlib.Path(name).read_text(encoding="utf-8")) for name in sys.argv[1:])
    check_names(bill)
    check_programs(bill)
    licences = check_licences(bill, set(known))
    check_expressions()
    sizes = [f"{len(bill[part])} {part}" for part in ["packages", "files", "relationships"]]
    print(f"{', '.join(sizes)}, {licences} licences")


if __name__ == "__main__":
    main()
