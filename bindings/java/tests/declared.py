#!/usr/bin/env python3
"""bindings/java/tests/declared.py JAR FOLDER: tests the types that bcs_proved.java_types writes.

Each registry's types are compiled in FOLDER, and the registry's test vectors are decoded into them and encoded again
(declared/DeclaredTypes.java). BCS_LIBRARY names the library for Python, and JAVA_HOME the JDK.
"""

from __future__ import annotations

import json
import os
import pathlib
import shutil
import subprocess
import sys

HERE = pathlib.Path(__file__).resolve().parent
ROOT = HERE.parents[2]
sys.path.insert(0, str(ROOT / "bindings/python"))
from bcs_proved.declaring import Containers  # noqa: E402 (the folder has to be known first)
from bcs_proved.java_types import source_of, type_names  # noqa: E402

# Registries, with the names of their containers.
REGISTRIES: dict[str, dict[str, list[str]]] = {
    "examples/aptos_registry.json": {"address": ["AccountAddress"], "u256": ["U256"]},
    "examples/sui_registry.json": {"address": ["AccountAddress", "SuiAddress"]},
    "examples/every_format.json": {},
    "bindings/web/tests/shapes.json": {},
    "tests/rows/hostile_names.json": {},
    "bindings/python/tests/hard_types.json": {"address": ["Account", "address"]},
}
LEAST_VALUES = 1000


def run(*words: str | pathlib.Path) -> str:
    """What a command prints. It has to pass."""
    environment = os.environ | {"PYTHONPATH": str(ROOT / "bindings/python")}
    ended = subprocess.run(words, env=environment, capture_output=True, text=True, check=False)
    if ended.returncode != 0 or ended.stderr:
        sys.exit(f"declared: FAILED: {' '.join(map(str, words))}\n{ended.stdout}{ended.stderr}")
    return ended.stdout


def java(command: str) -> str:
    return f"{os.environ['JAVA_HOME']}/bin/{command}" if "JAVA_HOME" in os.environ else command


def name_of(format: str) -> str:
    """The name of the container that a vector's format is."""
    name: str = json.loads(format)["TYPENAME"] if format.startswith("{") else format
    return name


def test(registry: pathlib.Path, names: dict[str, list[str]], jar: str, room: pathlib.Path) -> int:
    """Tests the types of a registry, and returns how many values there were."""
    shutil.rmtree(room, ignore_errors=True)
    room.mkdir()
    containers = Containers(json.loads(registry.read_text(encoding="utf-8")), names)
    (room / "Types.java").write_text(source_of(containers), encoding="ascii")
    classes, lines, values = type_names(containers), [], 0
    for vector in map(
        json.loads, run(sys.executable, "-m", "bcs_proved.vectors", "--count", "20", registry).splitlines()
    ):
        own = classes.get(name_of(vector["format"]))
        if own is not None:
            values += "json" in vector and "refused" not in vector
            lines.append("\t".join([own, vector["format"].encode().hex(), vector["bytes"], vector.get("refused", "")]))
    (room / "vectors").write_text("".join(f"{line}\n" for line in lines), encoding="ascii")
    sources = [room / "Types.java", HERE / "declared/DeclaredTypes.java"]
    run(java("javac"), "-Xlint:all", "-Werror", "--release", "17", "-cp", jar, "-d", room, *sources)
    own_names = [",".join(names.get(form, [])) for form in ("address", "u256")]
    run(
        java("java"),
        "-XX:+UseSerialGC",
        "-Xss16m",
        "-cp",
        f"{jar}:{room}",
        "DeclaredTypes",
        registry,
        room / "vectors",
        *own_names,
        str(values),
    )
    return values


def main(jar: str, folder: pathlib.Path) -> None:
    values = sum(test(ROOT / registry, names, jar, folder / "declared") for registry, names in REGISTRIES.items())
    if values < LEAST_VALUES:
        sys.exit(f"declared: FAILED: only {values} values")
    print(f"{values} values in the types of {len(REGISTRIES)} registries")


if __name__ == "__main__":
    if len(sys.argv) != 3:
        sys.exit(__doc__)
    main(sys.argv[1], pathlib.Path(sys.argv[2]))
