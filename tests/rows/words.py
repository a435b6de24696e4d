"""What the words of a row stand for."""

import json
import re


class Unsayable(Exception):
    """No call says what the row asks."""


def unrolled(row: str) -> str:
    """The row with `(3*ab)` as `ababab`, and `(3*[#])` as `[2][1][0]`."""

    def repeated(found: re.Match[str]) -> str:
        count, text = int(found[1]), found[2]
        return "".join(text.replace("#", str(left)) for left in reversed(range(count)))

    return re.sub(r"\((\d+)\*([^)]*)\)", repeated, row)


def in_ascii(name: str) -> str:
    """A name as lines have it, between double quotes: printable ASCII."""

    def escaped(found: re.Match[str]) -> str:
        if found[0] in '"\\':
            return "\\" + found[0]
        return re.sub("....", r"\\u\g<0>", found[0].encode("utf-16-be").hex())

    return re.sub(r"[^ !#-\[\]-~]", escaped, name)


def bytes_of(word: str) -> bytes:
    return bytes.fromhex(word[2:]) if word.startswith("0x") else word.encode()


def format_of(word: str) -> bytes:
    """The JSON of a format. A word that is no JSON is a container's name."""
    if word[:1] in ("{", '"'):
        return word.encode()
    return json.dumps({"TYPENAME": word}, ensure_ascii=False).encode()


def bytes_of_digits(data: bytes) -> bytes:
    """The bytes of digits with blanks around them. Other digits never reach a call."""
    digits = data.strip(b" \t\r\n")
    if len(digits) % 2 or not re.fullmatch(rb"[0-9a-fA-F]*", digits):
        raise Unsayable
    return bytes.fromhex(digits.decode())
