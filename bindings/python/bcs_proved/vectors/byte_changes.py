"""Changes of a value's bytes after which they should be refused, each by one rule alone: a decoder that lacks the rule
accepts all of the bytes. And pairs of keys that differ in one byte, in order and swapped."""

from __future__ import annotations

from typing import Iterator, NamedTuple, Optional

from .tables import BAD_UTF8, BEHIND_WORDS, MAX_LENGTH
from .trees import Candidate, Piece, uleb

Key = tuple[object, ...]


class Change(NamedTuple):
    """The bytes from `start` to `end` become others. One change for each key is enough, if it is refused for the reason
    that is meant. Without a reason the bytes are still a value."""

    key: Key
    reason: Optional[str]
    start: int
    end: int
    new: bytes

    def apply(self, data: bytes) -> bytes:
        return data[: self.start] + self.new + data[self.end :]


def changes(root: str, candidate: Candidate) -> Iterator[Change]:
    size = len(candidate.data)
    yield Change(("a byte more", root), "TrailingBytes", size, size, b"\0")
    for piece in candidate.pieces:
        if piece.what == "MAP":
            yield from _of_map(candidate.data, piece)
            continue
        yield from _cuts(piece, size)
        if piece.what in ("length", "variant"):
            yield from _of_number(piece, size)
        if piece.what == "length":
            yield from _of_length(piece)
        elif piece.what == "variant":
            yield from _of_variant(piece)
        elif piece.what in ("BOOL", "OPTION"):
            yield from _of_flag(piece, candidate.data[piece.start])
        elif piece.what == "STR":
            yield from _of_string(piece)


def _label(piece: Piece) -> str:
    """What shares its code in a decoder. A list of items without bytes is read even where no bytes are left."""
    if piece.what != "length":
        return piece.what
    is_of_nothing = piece.shape.kind == "SEQ" and piece.shape.parts[0].is_empty
    return "SEQ of nothing" if is_of_nothing else piece.shape.kind


def _cuts(piece: Piece, size: int) -> Iterator[Change]:
    """The end before a piece, and within it. That of the last piece is missed by a decoder that reads less than it
    should."""
    is_last, label = piece.end == size, f"length of {_label(piece)}" if piece.what == "length" else piece.what
    if piece.end > piece.start:
        yield Change(("cut before", label, is_last), "EndOfInput", piece.start, size, b"")
    if piece.end > piece.start + 1:
        yield Change(("cut within", label, is_last), "EndOfInput", piece.end - 1, size, b"")


def _of_number(piece: Piece, size: int) -> Iterator[Change]:
    """Other bytes that some decoders take for the same number."""
    label, start, end = _label(piece), piece.start, piece.end
    number = bytearray(uleb(piece.number))
    number[-1] |= 128
    longest = bytes(number) + b"\x80" * (4 - len(number))
    yield Change(("number that doesn't end", label), "EndOfInput", start, size, bytes(number))
    if len(number) < 5:
        yield Change(("long form", label), "LongForm", start, end, bytes(number) + b"\0")
    if len(number) < 4:
        yield Change(("longest form", label), "LongForm", start, end, longest + b"\0")
    if len(number) < 5:
        yield Change(("number + 2^32", label), "NumberTooLarge", start, end, longest + b"\x10")
        yield Change(("six bytes", label), "NumberTooLarge", start, end, longest + b"\x80\0")
    yield Change(("2^64 - 1", label), "NumberTooLarge", start, end, b"\xff" * 9 + b"\1")


def _of_length(piece: Piece) -> Iterator[Change]:
    label, start, end = _label(piece), piece.start, piece.end
    if not piece.number:
        # negative numbers for a decoder with integers of 32 bits, which then reads an empty list
        yield Change(("2^31", label), "LengthTooLarge", start, end, uleb(MAX_LENGTH + 1))
        yield Change(("2^32 - 1", label), "LengthTooLarge", start, end, uleb((1 << 32) - 1))
    reason = "TooManyNodes" if label == "SEQ of nothing" else "EndOfInput"
    yield Change(("2^31 - 1", label), reason, start, end, uleb(MAX_LENGTH))


def _of_variant(piece: Piece) -> Iterator[Change]:
    known, shape = set(piece.shape.numbers), id(piece.shape)
    following = piece.shape.numbers[-1] + 1
    gap = next(number for number in range(following + 1) if number not in known)
    for number in dict.fromkeys((gap, following)):
        if number < 1 << 32:
            yield Change(("unknown variant", shape, number), "UnknownVariant", piece.start, piece.end, uleb(number))
            if piece.content_end > piece.end:
                key = ("unknown variant without payload", shape, number)
                yield Change(key, "UnknownVariant", piece.start, piece.content_end, uleb(number))
    for more in (1 << 7, 1 << 8, 1 << 16):
        # a known variant again once its number is cut to fewer bits
        if piece.number + more not in known and piece.number + more < 1 << 32:
            new = uleb(piece.number + more)
            yield Change(("variant far", more), "UnknownVariant", piece.start, piece.end, new)
    if (1 << 32) - 1 not in known:
        yield Change(("last variant",), "UnknownVariant", piece.start, piece.end, uleb((1 << 32) - 1))


def _of_flag(piece: Piece, now: int) -> Iterator[Change]:
    """In place of 1 for decoders to which every byte but 0 is 1, and in place of 0 for those to which every byte but 1
    is 0."""
    reason = "BadBool" if piece.what == "BOOL" else "BadOption"
    yield Change((piece.what, id(piece.shape), now), reason, piece.start, piece.end, b"\2")
    for byte in (0x80, 0x81, 0xFF):
        yield Change((piece.what, now, byte), reason, piece.start, piece.end, bytes([byte]))


def _of_string(piece: Piece) -> Iterator[Change]:
    # (its length comes right before it)
    start = piece.start - len(uleb(piece.end - piece.start))
    yield Change(("bad string", id(piece.shape)), "BadUtf8", start, piece.end, b"\1\xff")
    for bad in BAD_UTF8:
        yield Change(("bad UTF-8", bad), "BadUtf8", start, piece.end, uleb(len(bad)) + bad)


def _of_map(data: bytes, piece: Piece) -> Iterator[Change]:
    """Entries in another order, and keys in place of others."""
    shape, marks = id(piece.shape), piece.marks
    entries = [data[start:end] for start, end in zip(marks[::2], marks[2::2])]
    keys = [data[start:end] for start, end in zip(marks[::2], marks[1::2])]

    def swapped(key: str, first: int) -> Change:
        new = entries[first + 1] + entries[first]
        return Change((key, shape), "KeyOrder", marks[2 * first], marks[2 * first + 4], new)

    def with_key(key: str, reason: str, at: int, new: int) -> Change:
        return Change((key, shape), reason, marks[2 * at], marks[2 * at + 1], keys[new])

    if len(keys) >= 2:
        yield swapped("order", 0)
        yield with_key("repeated", "KeyRepeated", 1, 0)
    falls = [index for index in range(len(keys) - 1) if len(keys[index]) > len(keys[index + 1])]
    for index in falls[:1]:
        yield swapped("order by length", index)
    if len(keys) >= 3:
        yield with_key("first key again", "KeyOrder", 2, 0)
        yield with_key("last key again", "KeyRepeated", 2, 1)
    yield from _of_keys(piece, keys, entries)


def _of_keys(piece: Piece, keys: list[bytes], entries: list[bytes]) -> Iterator[Change]:
    """Two entries in place of all, whose keys differ in one byte. A decoder that compares less of them rejects them in
    order, or accepts them swapped."""
    format, start, end = piece.shape.parts[0].format, piece.start, piece.marks[-1]
    longest = max(keys, key=lambda key: (len(key), key), default=b"")
    last = len(longest) - 1
    # (an empty list or string has only its length)
    for place in [*(place for place in BEHIND_WORDS if place < last), last] if longest.strip(b"\0") else []:
        key = longest if place == last else min((key for key in keys if len(key) > place + 1), key=len)
        rest = key[place + 1 :] + entries[keys.index(key)][len(key) :]
        name = ("keys", format, "last" if place == last else place)
        # (with another bit the byte may be none that a key can have there)
        for bit in (1, 2):
            low, high = (key[:place] + bytes([byte]) + rest for byte in (key[place] & ~bit, key[place] | bit))
            yield Change(name, None, start, end, uleb(2) + low + high)
            yield Change((*name, "swapped"), "KeyOrder", start, end, uleb(2) + high + low)
