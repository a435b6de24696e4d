#!/usr/bin/env python3
"""bindings/go/tests/declared.py MODULE: tests the types that bcs_proved.go_types writes.

MODULE is a copy of the module for Go that can be built. Each registry's types are compiled there, and the registry's
test vectors are decoded into them and encoded again (generated_test.go). BCS_LIBRARY names the library for Python.
"""

from __future__ import annotations

import json
import os
import pathlib
import shutil
import subprocess
import sys

HERE = pathlib.Path(__file__).resolve().parent
ROOT = HERE.parents[2]
sys.path.insert(0, str(ROOT / "bindings/python"))
from bcs_proved.declaring import Identifiers  # noqa: E402 (the folder has to be known first)
from bcs_proved.go_types import quoted  # noqa: E402


# Registries, with the options that name their containers.
REGISTRIES: dict[str, list[str]] = {
    "examples/aptos_registry.json": ["--address", "AccountAddress", "--u256", "U256"],
    "examples/sui_registry.json": ["--address", "AccountAddress", "--address", "SuiAddress"],
    "examples/every_format.json": [],
    "bindings/web/tests/shapes.json": [],
    "tests/rows/hostile_names.json": [],
    "bindings/python/tests/hard_types.json": ["--address", "Account", "--address", "address"],
}
LEAST_VALUES = 1000


def run(*words: str | pathlib.Path, folder: pathlib.Path = ROOT) -> str:
    """What a command prints. It has to pass."""
    environment = os.environ | {"PYTHONPATH": str(ROOT / "bindings/python")}
    ended = subprocess.run(words, cwd=folder, env=environment, capture_output=True, text=True, check=False)
    if ended.returncode != 0 or ended.stderr:
        sys.exit(f"declared: FAILED: {' '.join(map(str, words))}\n{ended.stdout}{ended.stderr}")
    return ended.stdout


def variables(containers: dict[str, object], values: int, has_names: bool) -> str:
    """The file with a variable for each container, and how many vectors are values."""
    lines = [
        f"\t{quoted(name)}: func() any {{ return new({own}) }},\n"
        for name, own in Identifiers(["Names"]).of_all(containers).items()
    ]
    names = "{Names}" if has_names else "{}"
    return (
        f'package generated\n\nimport "fodrascu.example/bcsproved"\n\nvar names = []bcsproved.Names{names}\n\n'
        f"const wantedValues = {values}\n\nvar variables = map[string]func() any{{\n{''.join(lines)}}}\n"
    )


def test(registry: pathlib.Path, options: list[str], module: pathlib.Path) -> int:
    """Tests the types of a registry, and returns how many values there were."""
    room = module / "generated"
    shutil.rmtree(room, ignore_errors=True)
    room.mkdir()
    made = run(sys.executable, "-m", "bcs_proved.go_types", "--package", "generated", *options, registry)
    (room / "types.go").write_text(made, encoding="utf-8")
    unformatted = run("gofmt", "-d", "types.go", folder=room)
    if unformatted:
        sys.exit(f"declared: FAILED: gofmt would change the types of {registry}\n{unformatted}")
    vectors = run(sys.executable, "-m", "bcs_proved.vectors", "--count", "20", registry)
    (room / "vectors").write_text(vectors, encoding="utf-8")
    text = registry.read_text(encoding="utf-8")
    (room / "registry.json").write_text(text, encoding="utf-8")
    values = len(
        [vector for vector in map(json.loads, vectors.splitlines()) if "json" in vector and "refused" not in vector]
    )
    (room / "variables.go").write_text(variables(json.loads(text), values, "var Names" in made), encoding="utf-8")
    shutil.copy(HERE / "generated_test.go", room)
    run("go", "vet", "-tags", "bcs_generated", "./generated", folder=module)
    ran = run("go", "test", "-tags", "bcs_generated", "-v", "./generated", folder=module)
    if "--- PASS: TestVectors" not in ran:
        sys.exit(f"declared: FAILED: no test ran\n{ran}")
    return values


def main(module: pathlib.Path) -> None:
    values = sum(test(ROOT / registry, options, module) for registry, options in REGISTRIES.items())
    shutil.rmtree(module / "generated")
    if values < LEAST_VALUES:
        sys.exit(f"declared: FAILED: only {values} values")
    print(f"{values} values in the types of {len(REGISTRIES)} registries")


if __name__ == "__main__":
    if len(sys.argv) != 2:
        sys.exit(__doc__)
    main(pathlib.Path(sys.argv[1]).resolve())
