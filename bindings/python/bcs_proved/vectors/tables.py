"""What is tried of each kind of leaf: bounds of integers, strings at the bounds of UTF-8, lengths, and bad UTF-8."""

from __future__ import annotations

from typing import NamedTuple

# The bytes of each kind of integer.
WIDTHS = {f"{sign}{8 * width}": width for sign in "UI" for width in (1, 2, 4, 8, 16)}
# No value has these. Beside them are the bytes that a decoder that supports them would read.
UNSUPPORTED = {"F32": bytes.fromhex("0000803f"), "F64": bytes.fromhex("000000000000f03f"), "CHAR": b"a\0\0\0"}

# Lengths in one byte of ULEB128, in two, and in three; 501 containers side by side are more than may nest.
LENGTHS = {
    "STR": (127, 128, 300, 16384),
    "BYTES": (127, 128, 300, 16384),
    "SEQ": (127, 128, 300),
    "SEQ of containers": (501,),
    "MAP": (127, 128, 300),
}
# Where two keys of a map differ, besides in their last byte: right behind what a decoder may compare at once.
BEHIND_WORDS = (8, 16, 24, 32)
MAX_LENGTH = (1 << 31) - 1
MAX_CONTAINERS = 500

# At the bounds of one to four bytes; a byte order mark; one letter in two forms; what JSON escapes; and what some
# languages take for the end of a line.
STRINGS = (
    "a",
    "",
    "é",
    "€",
    "😀",
    "\0",
    "\x7f\x80",
    "\u07ff\u0800",
    "\ud7ff\ue000",
    "\uffff",
    "\U00010000\U0010ffff",
    "\ufeffx",
    "e\u0301",
    '"\\\n\x1f/',
    "\u2028\u0085",
    " a ",
)
# A continuation alone; overlong forms; surrogates; above U+10FFFF; bytes that never occur; cut characters.
BAD_UTF8 = tuple(
    bytes.fromhex(digits)
    for digits in (
        "80 bf c080 c1bf e08080 e09fbf eda080 edb080 eda080edb080 f0808080 f08fbfbf f4908080 f5808080 fe ff "
        "c3 e282 f09f98 c328 e28228 61c3 e2e282ac"
    ).split()
)


class Range(NamedTuple):
    """The least and the greatest integer of a kind."""

    low: int
    high: int


def range_of(kind: str) -> Range:
    bits = 8 * WIDTHS[kind]
    return Range(0, (1 << bits) - 1) if kind[0] == "U" else Range(-(1 << (bits - 1)), (1 << (bits - 1)) - 1)


def bounds(kind: str) -> list[int]:
    """The integers of a kind that go wrong most easily. The first one has a different value in each byte."""
    bits, (low, high) = 8 * WIDTHS[kind], range_of(kind)
    in_order = int.from_bytes(bytes(range(1, bits // 8 + 1)), "big")
    found = [in_order, 0, 1, high, 1 << (bits - 2)]
    found += [1 << shift for shift in (7, 8, 15, 16, 31, 32, 53, 63, 64)]
    found += [(1 << shift) - 1 for shift in (32, 64)] + [(1 << 53) + 1]
    if low < 0:
        found += [-1, low, -2, -in_order] + [-(1 << shift) for shift in (8, 32, 64)]
    return list(dict.fromkeys(number for number in found if low <= number <= high))
