"""Decodes a folder of files with the workers of a Dask cluster, on one machine or on many.

    python3 dask_decode.py SCHEDULER REGISTRY FORMAT FOLDER OUT

SCHEDULER is an address like tcp://host:8786. Each file FOLDER/NAME.hex has the hexadecimal digits of a value on each
line, and OUT/NAME.json is what `bcs decode --quiet --lines` prints for it: the value's JSON, or `refused: ..`, on the
same line. A file is a task. The last line counts the files, the lines, and those that were refused.

All workers must see both folders, and each needs the module `bcs_proved` (bindings/python). A worker writes a file
under another name first (NAME.json...part), so a file of answers is either complete or missing. If a worker dies, the
scheduler gives its files to another one.
"""

from __future__ import annotations

import functools
import os
import pathlib
import re
import sys
import uuid
from typing import TYPE_CHECKING, Any

from dask.distributed import Client

if TYPE_CHECKING:
    from bcs_proved import Registry

DIGITS = re.compile(rb"(?:[0-9a-fA-F]{2})*")


@functools.lru_cache(maxsize=4)
def open_registry(text: str) -> Registry:
    """The worker keeps it open."""
    from bcs_proved import Registry

    return Registry(text)


def decoded(registry: Registry, format: str, line: bytes) -> tuple[str, bool]:
    """The line of an answer, and whether it is a value."""
    from bcs_proved import BytesError

    digits = line.strip(b" \t\r\n")
    if not DIGITS.fullmatch(digits):
        return "refused: BadHex", False
    try:
        return registry.decode_json(format, bytes.fromhex(digits.decode())), True
    except BytesError as fault:
        place = "" if fault.place is None else f" at {fault.place}"
        return f"refused: {fault.reason}{place}", False


def decode_file(text: str, format: str, source: str, target: str) -> tuple[int, int]:
    """Returns how many lines the file has, and how many of them are refused."""
    registry = open_registry(text)
    part = f"{target}.{uuid.uuid4().hex}.part"
    lines = refused = 0
    with open(source, "rb") as given, open(part, "w", encoding="utf-8", newline="\n") as answers:
        for line in given:
            answer, is_value = decoded(registry, format, line)
            answers.write(answer + "\n")
            lines += 1
            refused += not is_value
    os.replace(part, target)
    return lines, refused


def decode_folder(
    client: Any, text: str, format: str, folder: str | os.PathLike[str], out: str | os.PathLike[str]
) -> tuple[int, int, int]:
    """Returns how many files and lines there are, and how many lines are refused."""
    import dask_decode  # this file, as the workers have it

    sources = sorted(map(str, pathlib.Path(folder).resolve().glob("*.hex")))
    targets = [str(pathlib.Path(out).resolve() / f"{pathlib.Path(source).stem}.json") for source in sources]
    decode = functools.partial(dask_decode.decode_file, text, format)
    counts = client.gather(client.map(decode, sources, targets, pure=False))
    return len(sources), sum(lines for lines, _ in counts), sum(refused for _, refused in counts)


def main(words: list[str]) -> int:
    scheduler, registry, format, folder, out = words
    text = pathlib.Path(registry).read_text(encoding="utf-8")
    os.makedirs(out, exist_ok=True)
    with Client(scheduler) as client:
        client.upload_file(__file__)
        files, lines, refused = decode_folder(client, text, format, folder, out)
    print(f"{files} files, {lines} lines, {refused} of them refused")
    return 2 if refused else 0


if __name__ == "__main__":
    if len(sys.argv) != 6:
        sys.exit(__doc__)
    sys.exit(main(sys.argv[1:]))
