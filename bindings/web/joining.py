"""Joins modules of JavaScript into one script, without their imports and the word `export`."""

from __future__ import annotations

import pathlib
import re
import sys
from collections.abc import Iterable


def joined(paths: Iterable[pathlib.Path]) -> str:
    """The modules as one script. Each has to come after those that it imports."""
    parts = [plain(path.read_text(encoding="utf-8")) for path in paths]
    script = '"use strict";\n' + "\n".join(parts)
    raise_at_repeated_names(script)
    return script


def plain(module: str) -> str:
    """A module as a part of a script."""
    module = re.sub(r"^import\s[^;]*;\n", "", module, flags=re.MULTILINE)
    return re.sub(r"^export ", "", module, flags=re.MULTILINE)


def raise_at_repeated_names(script: str) -> None:
    names = re.findall(r"^(?:async )?(?:function|class|const|let) (\w+)", script, flags=re.MULTILINE)
    repeated = {name for name in names if names.count(name) > 1}
    if repeated:
        sys.exit(f"two modules of one script have the names: {', '.join(sorted(repeated))}")
