#!/usr/bin/env python3
"""bindings/web/commonjs.py FOLDER: makes FOLDER/bcs.cjs, which is bcs.mjs for `require`, and its types, bcs.d.cts.

It has everything in one file, since `require` can't load modules in all versions of Node. As in bcs.mjs, the module
bcs.wasm is read from the folder of the file.
"""

from __future__ import annotations

import pathlib
import re
import sys

from joining import joined

HERE = pathlib.Path(__file__).resolve().parent
MODULES = [
    "errors",
    "hex",
    "octets",
    "texts",
    "move_types",
    "shapes",
    "json_output",
    "writing",
    "reading",
    "interruptions",
]
MODULES += ["question", "calls", "limits", "holder", "refusals", "views", "format_calls", "registry", "support"]
MODULES += ["modules", "loader", "own_module"]
ADDRESS = "require('node:url').pathToFileURL(__filename).href"


def exported() -> list[str]:
    """What bcs.mjs exports, as members of an object."""
    lists = re.findall(r"^export \{ (.*) \} from", (HERE / "bcs.mjs").read_text(encoding="utf-8"), flags=re.MULTILINE)
    names = [name.split(" as ") for names in lists for name in names.split(", ")]
    return [name[0] if len(name) == 1 else f"{name[1]}: {name[0]}" for name in names]


def main(folder: pathlib.Path) -> None:
    script = joined(HERE / f"{name}.mjs" for name in MODULES)
    if script.count("import.meta.url") != 1 or "import.meta" in script.replace("import.meta.url", ""):
        sys.exit("commonjs: the modules use import.meta in another way")
    script = script.replace("import.meta.url", ADDRESS)
    head = "// bcs.mjs for `require`: bindings/web/commonjs.py makes this file.\n"
    text = f"{head}{script}\nmodule.exports = {{ {', '.join(exported())} }};\n"
    (folder / "bcs.cjs").write_text(text, encoding="utf-8")
    (folder / "bcs.d.cts").write_bytes((HERE / "bcs.d.mts").read_bytes())


if __name__ == "__main__":
    if len(sys.argv) != 2:
        sys.exit(__doc__)
    main(pathlib.Path(sys.argv[1]))
