#!/usr/bin/env python3
"""Converts registries from YAML, as chains publish them, to the JSON that bcs reads, and merges registries.

Usage: bcs-registry [-o FILE] [REGISTRY]
       bcs-registry merge [-o FILE] REGISTRY REGISTRY...

REGISTRY is a file: JSON if its name ends with .json or its content begins with {, and YAML otherwise. If it is - or
missing, it is standard input. The JSON is written to standard output, or to FILE, after bcs has checked it. Standard
error reports what was changed. `merge` joins registries that agree: a container that several of them have must be the
same in each.

Options:
  -o, --output FILE  write the JSON to FILE, or if it is -, to standard output
  -h, --help         print this text
  -V, --version      print the version

The status is 0, or
  2  a registry is refused, or two of them disagree: `refused: ..` on standard output, and why on standard error
  3  invalid arguments
  4  a file or a program that is needed can't be used: `fault: ..` on standard error

YAML needs PyYAML (apt install python3-yaml, or pip install PyYAML).
"""

from __future__ import annotations

import sys

if __name__ == "__main__" and not __package__ and not getattr(sys.flags, "safe_path", False):
    # Python looks for modules beside a script first, and would import types.py of this folder in place of its own.
    del sys.path[0]

import collections
import contextlib
import errno
import importlib
import json
import os
import pathlib
import re
import shutil
import stat
import subprocess
import tempfile
from collections.abc import Callable, Iterator
from typing import Any, BinaryIO, NamedTuple, Optional

__all__ = ["from_yaml", "main", "merged"]

# (this file also runs by itself)
_VERSION = "0.1.0"
_STANDARD_STREAM = "-"

# By these names, what is written goes to a descriptor that is open already.
_DESCRIPTORS = re.compile(r"/dev/(?P<stream>stdout|stderr)|/(?:dev|proc/self)/fd/(?P<number>0|[1-9][0-9]{0,8})")
# As many links as Linux follows.
_LINKS = 40
# Each try takes the name of a file that a run left when it was killed, or that somebody else put there.
_TRIES = 1000
# Linux' access control lists. A file that has one can only keep it if it is written directly.
_INHERITED = "system.posix_acl_access"
_LISTS = (_INHERITED, "system.nfs4_acl")
_HAS_NONE = (errno.ENODATA, errno.ENOTSUP) if sys.platform == "linux" else ()
# There can be no new file in the folder, though the file that is there may be written.
_HINDRANCES = (errno.EACCES, errno.EPERM, errno.EROFS, errno.ENAMETOOLONG, errno.ENOENT)

# The proved reader rejects a registry that nests deeper.
_DEPTH = 130
_LARGEST = 1 << 28
_DIGITS = 20
_NUMBER = re.compile(r"0|[1-9][0-9]*")
# YAML 1.1 reads these words as truth values. YAML 1.2 and serde_yaml read them as text.
_WORDS = re.compile(r"y|n|yes|no|on|off", re.IGNORECASE)
# serde_yaml 0.9 writes {"SEQ": "U8"} as `!SEQ U8`.
_TAG = re.compile(r"![A-Z0-9]+")


class Refused(Exception):
    """A registry is refused, or the YAML has something that no registry has. As a string it is the line of standard
    error that says where and why."""

    def __init__(self, reason: str, at: str, message: str) -> None:
        super().__init__(reason, at, message)
        self.reason = reason
        self.at = at
        self.message = message

    def __str__(self) -> str:
        return f"at {self.at}: {self.reason}: {self.message}"


class Fault(Exception):
    """A file or a program can't be used. `word` says what failed: open, read, write, or missing."""

    def __init__(self, word: str, message: str) -> None:
        super().__init__(word, message)
        self.word = word
        self.message = message


class _Level(NamedTuple):
    """An open mapping or sequence: what it holds so far, where it begins, and the tag that is wrapped around it."""

    held: Any
    line: int
    tag: Optional[str]
    # the key that waits for its value
    keys: list[str]


def from_yaml(text: bytes, name: str = "registry") -> tuple[dict[str, Any], list[str]]:
    """The registry of a YAML text, and what was changed. Raises Refused for YAML that can't be a registry's."""
    try:
        yaml: Any = importlib.import_module("yaml")
    except ImportError as fault:
        hint = "apt install python3-yaml, or pip install PyYAML"
        raise Fault("missing", f"reading YAML needs PyYAML: {hint}") from fault
    reader = _Reader(name, yaml.SafeLoader.yaml_implicit_resolvers)
    try:
        for event in yaml.parse(text, Loader=yaml.SafeLoader):
            reader.take(type(event).__name__, event)
    except (yaml.YAMLError, UnicodeDecodeError) as fault:
        raise Refused("NotYaml", name, " ".join(str(fault).split())) from fault
    return reader.registry(), reader.changes()


class _Reader:
    """Builds JSON from the events of a YAML parser. It never guesses: what JSON of a registry can't have is refused."""

    def __init__(self, name: str, resolvers: Any) -> None:
        self._name = name
        self._resolvers = resolvers
        self._levels: list[_Level] = []
        self._documents: list[Any] = []
        self._changes: dict[str, list[int]] = collections.defaultdict(list)

    def take(self, kind: str, event: Any) -> None:
        line = event.start_mark.line + 1
        if kind == "AliasEvent" or getattr(event, "anchor", None):
            raise self._refused("BadShape", line, "anchors and aliases aren't supported")
        if kind == "ScalarEvent":
            self._scalar(event, line)
        elif kind in ("MappingStartEvent", "SequenceStartEvent"):
            self._open({} if kind.startswith("Mapping") else [], event.tag, line)
        elif kind in ("MappingEndEvent", "SequenceEndEvent"):
            level = self._levels.pop()
            self._put(level.held if level.tag is None else {level.tag: level.held}, level.line)

    def registry(self) -> dict[str, Any]:
        if len(self._documents) != 1 or not isinstance(self._documents[0], dict):
            raise Refused("BadShape", self._name, "a registry is one document with a mapping")
        return self._documents[0]

    def changes(self) -> list[str]:
        return [
            f"{self._name}: {what}: {len(lines)}, first in line {lines[0]}" for what, lines in self._changes.items()
        ]

    def _refused(self, reason: str, line: int, message: str) -> Refused:
        return Refused(reason, f"{self._name}, line {line}", message)

    def _is_key(self) -> bool:
        return bool(self._levels) and isinstance(self._levels[-1].held, dict) and not self._levels[-1].keys

    def _open(self, held: Any, tag: Optional[str], line: int) -> None:
        if self._is_key():
            raise self._refused("BadShape", line, "a key is a mapping or a sequence")
        if len(self._levels) >= _DEPTH:
            raise self._refused("TooNested", line, f"it nests more than {_DEPTH} deep")
        self._levels.append(_Level(held, line, self._member_of(tag, line), []))

    def _member_of(self, tag: Optional[str], line: int) -> Optional[str]:
        if tag is None:
            return None
        if not _TAG.fullmatch(tag) or self._is_key():
            raise self._refused("BadShape", line, f"the tag {tag} isn't supported")
        self._changes["tags, as `!SEQ U8`, that became members, as `SEQ: U8`"].append(line)
        return tag[1:]

    def _scalar(self, event: Any, line: int) -> None:
        member = self._member_of(event.tag, line)
        value = event.value if event.style else self._plain(event.value, line)
        self._put(value if member is None else {member: value}, line)

    def _plain(self, text: str, line: int) -> Any:
        """A scalar without quotation marks: a number or a text, as serde_yaml reads it."""
        if _NUMBER.fullmatch(text):
            if len(text) > _DIGITS:
                raise self._refused("BadNumber", line, f"a number has more than {_DIGITS} digits")
            if not self._is_key():
                return int(text)
            self._changes["numbers of variants that became strings"].append(line)
            return text
        if _WORDS.fullmatch(text):
            self._changes[f"`{text}` without quotation marks, which was read as a name"].append(line)
            return text
        kinds = [*self._resolvers.get(text[:1], []), *self._resolvers.get(None, [])]
        if text == "" or any(shape.match(text) for _, shape in kinds):
            why = f"`{text}` isn't a name; if it is meant as one, put it in quotation marks"
            raise self._refused("BadShape", line, why)
        return text

    def _put(self, value: Any, line: int) -> None:
        if not self._levels:
            self._documents.append(value)
        elif isinstance(self._levels[-1].held, list):
            self._levels[-1].held.append(value)
        elif self._is_key():
            if not isinstance(value, str):
                raise self._refused("BadShape", line, "a key is a mapping or a sequence")
            if value in self._levels[-1].held:
                raise self._refused("RepeatedName", line, f"the name {json.dumps(value)} occurs twice")
            self._levels[-1].keys.append(value)
        else:
            self._levels[-1].held[self._levels[-1].keys.pop()] = value


# What refuses the JSON of a registry that has this name.
Check = Callable[[bytes, str], None]


def checker() -> Check:
    """The proved check: of the program beside this file, of this package, or of the program that the system finds."""
    here = pathlib.Path(__file__).resolve().parent
    # (in the repository the launcher is at the top)
    for folder in [here, *(parent for parent in here.parents if (parent / "crates.txt").is_file())]:
        if (folder / "bcs").is_file():
            return _by_program(str(folder / "bcs"))
    if (here / "bcs.mjs").is_file() and shutil.which("node"):
        return _by_program("node", str(here / "bcs.mjs"))
    try:
        import bcs_proved
    except ImportError:
        found = shutil.which("bcs")
        if found is None:
            missing = "neither the program bcs nor the module bcs_proved is here to check the registry"
            raise Fault("missing", missing) from None
        return _by_program(found)
    return _by_module(bcs_proved)


def _by_module(bcs_proved: Any) -> Check:
    def check(text: bytes, name: str) -> None:
        try:
            bcs_proved.Registry(text).close()
        except bcs_proved.RegistryError as fault:
            # (the program has line and column apart)
            line = re.match(r"(line \d+, column \d+): ", fault.message)
            place, message = (line[1], fault.message[line.end() :]) if line else (fault.at, fault.message)
            raise Refused(fault.reason, f"{name}, {place}" if place else name, message) from fault

    return check


def _by_program(*command: str) -> Check:
    def check(text: bytes, name: str) -> None:
        try:
            with tempfile.NamedTemporaryFile(suffix=".json") as file:
                file.write(text)
                file.flush()
                told = subprocess.run([*command, "check", file.name], capture_output=True, check=False)
        except OSError as fault:
            raise Fault("write", f"in a temporary file for {' '.join(command)} check: {fault.strerror}") from fault
        output, errors = (part.decode(errors="replace").strip() for part in (told.stdout, told.stderr))
        if told.returncode == 0 and output.startswith("ok"):
            return
        if told.returncode != 2:
            raise Fault("missing", f"{' '.join(command)} check: status {told.returncode}: {errors}")
        reason = output.partition("refused: ")[2]
        at, _, message = errors.partition(f": {reason}: ")
        place = at[3:] if message and at not in ("at the document", "at the whole text") else ""
        raise Refused(reason, f"{name}, {place}" if place else name, message or errors)

    return check


def merged(registries: list[tuple[str, dict[str, Any]]]) -> dict[str, Any]:
    """Registries with their names as one. Raises Refused if two of them have another container of the same name."""
    whole: dict[str, Any] = {}
    owners: dict[str, str] = {}
    apart: list[str] = []
    for owner, containers in registries:
        for name, container in containers.items():
            if whole.setdefault(name, container) != container:
                apart.append(f"{json.dumps(name)} isn't the same in {owners[name]} and {owner}")
            owners.setdefault(name, owner)
    if apart:
        raise Refused("Different", "merge", "; ".join(apart))
    return whole


def _shown(name: str) -> str:
    return "the standard input" if name == _STANDARD_STREAM else name


def _content_of(name: str) -> bytes:
    if name == _STANDARD_STREAM:
        # (Python has nothing for a stream that is closed)
        if not sys.stdin:
            raise Fault("read", f"in the standard input: {os.strerror(errno.EBADF)}")
        return _all_of(sys.stdin.buffer, "the standard input")
    try:
        file = open(name, "rb")
    except OSError as fault:
        raise Fault("open", f"in the file {name}: {fault.strerror}") from fault
    with file:
        return _all_of(file, f"the file {name}")


def _all_of(file: BinaryIO, place: str) -> bytes:
    try:
        content = file.read(_LARGEST + 1)
    except OSError as fault:
        raise Fault("read", f"in {place}: {fault.strerror}") from fault
    if len(content) > _LARGEST:
        raise Fault("too large", f"in {place}")
    return content


def _read(name: str, check: Check) -> Iterator[Any]:
    """The registry in a file, which the proved check accepts, and then what was changed."""
    content = _content_of(name)
    is_json = name.endswith(".json") or (content.lstrip()[:1] == b"{" and not name.endswith((".yaml", ".yml")))
    found, changes = (None, []) if is_json else from_yaml(content, _shown(name))
    text = content if is_json else _text_of(found)
    check(text, _shown(name))
    yield found if found is not None else json.loads(text)
    yield changes


def _text_of(registry: Any) -> bytes:
    # (the text of YAML may have half of a surrogate pair, which the check rejects)
    return (json.dumps(registry, indent=2, ensure_ascii=False) + "\n").encode("utf-8", "surrogatepass")


def _converted(names: list[str]) -> tuple[bytes, list[str]]:
    check = checker()
    read = [tuple(_read(name, check)) for name in names]
    text = _text_of(merged([(_shown(name), registry) for name, (registry, _) in zip(names, read)]))
    check(text, "the merged registry")
    return text, [change for _, changes in read for change in changes]


# ---- FILE of -o is never lost: a new file takes its place. The rules are those of `bcs -o` (docs/PROGRAM.md).


class _Place(NamedTuple):
    """Where FILE's name leads: a name that isn't a link's, and what is there."""

    path: str
    status: Optional[os.stat_result]


def _write(name: str, content: bytes) -> None:
    descriptor = _DESCRIPTORS.fullmatch(name)
    if descriptor:
        number = int(descriptor["number"]) if descriptor["number"] else 1 + (descriptor["stream"] == "stderr")
        with open(number, "wb", closefd=False) as stream:
            stream.write(content)
    elif not _replace(name, content):
        pathlib.Path(name).write_bytes(content)


def _replace(name: str, content: bytes) -> bool:
    """Gives FILE's name, owner, group and mode to a new file. False if FILE has to be written directly."""
    # (in Python, Windows has no way to keep the rights of a file that is replaced)
    place = _followed(name) if hasattr(os, "fchown") else None
    if place is None or not _is_replaceable(name, place.status):
        return False
    try:
        beside, descriptor = _new_file(place)
    except OSError as fault:
        if fault.errno in _HINDRANCES:
            return False
        raise
    is_placed = False
    try:
        with open(descriptor, "wb") as file:
            if place.status and not _has_taken_rights(descriptor, place.status):
                return False
            file.write(content)
            file.flush()
            os.fsync(descriptor)
        is_placed = _is_renamed(beside, place.path)
    finally:
        if not is_placed:
            with contextlib.suppress(OSError):
                os.unlink(beside)
    return is_placed


def _followed(name: str) -> Optional[_Place]:
    """None if a link isn't one of a folder, like those of /proc, or if the links lead nowhere."""
    path, is_trusted = name, True
    for _ in range(_LINKS + 1):
        try:
            status = os.lstat(path)
        except FileNotFoundError:
            if not is_trusted:
                raise PermissionError(errno.EACCES, os.strerror(errno.EACCES)) from None
            return _Place(path, None)
        if not stat.S_ISLNK(status.st_mode):
            return _Place(path, status)
        if sys.platform == "linux" and stat.S_IMODE(status.st_mode) != 0o777:
            return None
        folder = os.path.dirname(path)
        # Somebody else's link to a file that isn't there would decide where one is made.
        is_trusted = is_trusted and status.st_uid in (os.geteuid(), os.stat(folder or ".").st_uid)
        path = os.path.join(folder, os.readlink(path))
    return None


def _is_replaceable(name: str, old: Optional[os.stat_result]) -> bool:
    """Whether the name leads to this file, or to none, and all its rights are its owner, group and mode. It opens the
    file like a shell's `>`, so that the system refuses what it protects, but leaves the file as it is.
    """
    if old and (not stat.S_ISREG(old.st_mode) or old.st_nlink != 1 or stat.S_IMODE(old.st_mode) & ~0o777):
        return False
    try:
        file = os.open(name, os.O_WRONLY | os.O_NOCTTY | (os.O_CREAT if old else 0), 0o666)
    except FileNotFoundError:
        return old is None
    try:
        return old is not None and os.path.samestat(os.fstat(file), old) and not _has_list(file)
    finally:
        os.close(file)


def _has_list(file: int) -> bool:
    if sys.platform == "linux":
        for name in _LISTS:
            try:
                os.getxattr(file, name)
            except OSError as fault:
                if fault.errno in _HAS_NONE:
                    continue
            return True
    return False


def _new_file(place: _Place) -> tuple[str, int]:
    """In FILE's folder. If it gets FILE's rights, nobody else may read it before."""
    folder, name = os.path.split(place.path)
    for _ in range(_TRIES):
        beside = os.path.join(folder, f".{name}.bcs-{os.urandom(4).hex()}")
        with contextlib.suppress(FileExistsError):
            return beside, os.open(beside, os.O_WRONLY | os.O_CREAT | os.O_EXCL, 0o600 if place.status else 0o666)
    raise FileExistsError(errno.EEXIST, os.strerror(errno.EEXIST))


def _has_taken_rights(file: int, old: os.stat_result) -> bool:
    new = os.fstat(file)
    try:
        if (new.st_uid, new.st_gid) != (old.st_uid, old.st_gid):
            os.fchown(file, old.st_uid, old.st_gid)
        _remove_inherited_list(file)
        os.fchmod(file, stat.S_IMODE(old.st_mode))
    except OSError:
        return False
    return True


def _remove_inherited_list(file: int) -> None:
    """With a list, the group's bits of the mode would be those of everybody whom the list names."""
    if sys.platform == "linux":
        try:
            os.removexattr(file, _INHERITED)
        except OSError as fault:
            if fault.errno not in _HAS_NONE:
                raise


def _is_renamed(beside: str, path: str) -> bool:
    """False if FILE is mounted by itself."""
    try:
        os.rename(beside, path)
    except OSError as fault:
        if fault.errno != errno.EBUSY:
            raise
        return False
    return True


class _Misuse(Exception):
    """The arguments are invalid."""


def _arguments(words: list[str]) -> tuple[list[str], Optional[str]]:
    """The registries, and the file for the output."""
    is_merge = words[:1] == ["merge"]
    names, output = words[1:] if is_merge else words, None
    if names[:1] in (["-o"], ["--output"]):
        if len(names) < 2 or not names[1]:
            raise _Misuse(f"{names[0]} needs a file")
        output, names = None if names[1] == _STANDARD_STREAM else names[1], names[2:]
    for name in names:
        if name.startswith("-") and name != _STANDARD_STREAM or not name:
            raise _Misuse(f"unexpected argument '{name}' found")
    if is_merge and len(names) < 2:
        raise _Misuse("merge needs two registries or more")
    if "merge" in names and len(names) > 1:
        raise _Misuse("merge comes before everything else")
    if not is_merge and len(names) > 1:
        raise _Misuse(f"unexpected argument '{names[1]}' found; to join registries, use merge")
    if names.count(_STANDARD_STREAM) > 1:
        raise _Misuse("only one registry can be the standard input")
    return names or [_STANDARD_STREAM], output


def main(words: Optional[list[str]] = None) -> int:
    """The command. Returns its status."""
    words = sys.argv[1:] if words is None else words
    try:
        if words in (["--help"], ["-h"]):
            return _put((__doc__ or "").encode(), None)
        if words in (["--version"], ["-V"]):
            return _put(f"bcs-registry {_VERSION}\n".encode(), None)
        return _convert(*_arguments(words))
    except _Misuse as fault:
        usage = "Usage: bcs-registry [merge] [-o FILE] [REGISTRY]..."
        _say(f"error: {fault}\n\n{usage}\n\nFor more information, try '--help'.")
        return 3
    except Fault as fault:
        _say(f"fault: {fault.word}\n{fault.message}")
        return 4


def _convert(names: list[str], output: Optional[str]) -> int:
    try:
        text, changes = _converted(names)
    except Refused as fault:
        _put(f"refused: {fault.reason}\n".encode(), None)
        _say(str(fault))
        return 2
    for change in changes:
        _say(change)
    return _put(text, output)


def _say(line: str) -> None:
    # (if standard error is closed, `print` would write to standard output)
    if sys.stderr:
        print(line, file=sys.stderr)


def _put(text: bytes, output: Optional[str]) -> int:
    place = "the standard output" if output is None else f"the file {output}"
    try:
        if output is not None:
            _write(output, text)
        elif not sys.stdout:
            raise OSError(errno.EBADF, os.strerror(errno.EBADF))
        else:
            sys.stdout.buffer.write(text)
            sys.stdout.flush()
    except OSError as fault:
        raise Fault("write", f"in {place}: {fault.strerror}") from fault
    return 0


if __name__ == "__main__":
    sys.exit(main())
