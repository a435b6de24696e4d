#!/usr/bin/env python3
"""bindings/go/tests/package.py LIBRARY FOLDER: makes the package of Go in FOLDER, with LIBRARY as that for x86-64.

It makes the package twice, and fails if the two differ.
"""

import pathlib
import sys

ROOT = pathlib.Path(__file__).resolve().parents[3]
sys.path.insert(0, str(ROOT / "tools/packaging"))
import bill_of_materials  # noqa: E402 (the folder has to be known first)
import go_module  # noqa: E402


def main(library: str, folder: str) -> None:
    files = go_module.contents(bill_of_materials.make(), {"amd64": pathlib.Path(library)}, None)
    made = go_module.packed(files)
    if not made or made != go_module.packed(files):
        sys.exit("package: FAILED: the second package differs from the first")
    for name, data in made.items():
        (pathlib.Path(folder) / name).write_bytes(data)


if __name__ == "__main__":
    if len(sys.argv) != 3:
        sys.exit(__doc__)
    main(sys.argv[1], sys.argv[2])
