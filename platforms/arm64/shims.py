#!/usr/bin/env python3
"""platforms/arm64/shims.py FOLDER: makes FOLDER/shims.c, a function for each proved call that returns an answer.

A call returns its answer of 24 bytes through a pointer. On x86-64 that pointer is the first parameter, as in the LLVM
module. On arm64 it is in a register of its own. So each function here calls that of the module, and passes the answer's
address first. FOLDER/symbols lists the new names of the module's functions, for objcopy.
"""

import pathlib
import re
import sys

HEADER = pathlib.Path(__file__).resolve().parents[2] / "bindings/c/proved.h"


def shim(name: str, parameters: str) -> str:
    words = ", ".join(re.findall(r"(\w+)$", parameter)[0] for parameter in parameters.split(","))
    return f"""
void module_{name}(bcs_answer *answer, {parameters});
bcs_answer {name}({parameters}) {{
    bcs_answer answer;
    module_{name}(&answer, {words});
    return answer;
}}
"""


def main(folder: str) -> None:
    header = re.sub(r"/\*.*?\*/", "", HEADER.read_text(encoding="utf-8"), flags=re.S)
    calls = re.findall(r"^bcs_answer (bcs_c_\w+)\(([^;]*)\);", header, flags=re.M)
    shims = [shim(name, " ".join(parameters.split())) for name, parameters in calls]
    (pathlib.Path(folder) / "shims.c").write_text(f'#include "{HEADER}"\n' + "".join(shims), encoding="utf-8")
    symbols = "".join(f"{name} module_{name}\n" for name, _ in calls)
    (pathlib.Path(folder) / "symbols").write_text(symbols, encoding="utf-8")


if __name__ == "__main__":
    if len(sys.argv) != 2:
        sys.exit(__doc__)
    main(sys.argv[1])
