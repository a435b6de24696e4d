#!/usr/bin/env python3
"""tests/trust_classes.py: does tools/trust.py count each file that runs at a user's, and refuse unknown ones?"""

from __future__ import annotations

import sys

from harness import ROOT, Failed, arguments, end_with, require

sys.path.insert(0, str(ROOT / "tools"))

import trust  # noqa: E402

COUNTED = """\
bcs install bindings/rust/build.rs bindings/go/calls.go bindings/java/src/bcsproved/Bcs.java bindings/sql/words.h
bindings/postgresql/bcs_pg.h bindings/postgresql/bcs.control bindings/sqlite/bcs_sqlite.h tools/packaging/completions.sh
""".split()
UNKNOWN = """\
glue.c bindings/swift/bcs.swift bindings/go/fast.c bindings/go/fast.s bindings/python/json.py tools/run.sh
bindings/rust/glue/lib.rs bindings/python/bcs_proved/fast.so bindings/sqlite/glue.cc dist.sh tools/packaging/postinst
""".split()


def is_refused(names: list[str]) -> bool:
    try:
        trust.classes_of(names)
    except SystemExit:
        return True
    return False


def main() -> None:
    arguments(__doc__)
    names = trust.tracked()
    classes = trust.classes_of(names)
    counted = {name for title in trust.GLUE for name in classes[title]}
    require(sum(map(len, classes.values())) == len(names), "some file is in no class, or in two")
    if missing := [name for name in COUNTED if name not in counted]:
        raise Failed(f"these aren't counted: {missing}")
    for name in UNKNOWN:
        require(is_refused([*names, name]), f"an unknown file has a class: {name}")
    require(is_refused([name for name in names if name != "install"]), "a pattern that no file fits is accepted")
    print(f"trust: {len(counted)} files of the tree run at a user's; {len(UNKNOWN)} unknown files are refused")


if __name__ == "__main__":
    end_with(main)
