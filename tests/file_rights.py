#!/usr/bin/env python3
"""Tests that `bcs -o FILE` gives nobody a right that FILE didn't give: tests/file_rights.py COMMAND..

COMMAND is the program, or an emulator with the program. The test needs root, for a file system of its own and mounts in
it. Without an emulator, strace makes calls of the program fail, as they do on other systems.
"""

from __future__ import annotations

import os
import pathlib
import struct
import subprocess
import sys
import tempfile
from collections.abc import Callable, Iterator
from contextlib import contextmanager

import debian
from harness import fail, passed

OLD, NEW = b"the old file\n", b"\x035a5"
ACCESS, DEFAULT = "system.posix_acl_access", "system.posix_acl_default"
# The named user of each list.
USER = 1234
# Kinds of entries, as in Linux's posix_acl_xattr.h, and who has none of the numbers.
OWNER, NAMED, GROUP, MASK, OTHERS = 0x01, 0x02, 0x04, 0x10, 0x20
NOBODY = 0xFFFFFFFF
READ, WRITE = 4, 2


def acl(owner: int, named: int, group: int, mask: int, others: int) -> bytes:
    """An access control list, as the attribute has it."""
    rights = [(OWNER, owner), (NAMED, named), (GROUP, group), (MASK, mask), (OTHERS, others)]
    entries = [struct.pack("<HHI", kind, right, USER if kind == NAMED else NOBODY) for kind, right in rights]
    return struct.pack("<I", 2) + b"".join(entries)


class Room:
    """A folder for a test, with the file `file` in it."""

    def __init__(self, command: list[str], folder: pathlib.Path) -> None:
        self.command, self.folder = command, folder
        self.file = folder / "file"

    def run(self, *tool: str) -> subprocess.CompletedProcess[bytes]:
        job = [*tool, *self.command, "encode", "{}", '"STR"', "--raw", "-o", "file"]
        return subprocess.run(job, cwd=self.folder, input=b'"5a5"', capture_output=True, umask=0o022)

    def put_old(self, mode: int) -> int:
        """Makes the old file. Returns its number, which a file that is written directly keeps."""
        self.file.write_bytes(OLD)
        self.file.chmod(mode)
        return self.file.stat().st_ino

    def writes(self, *tool: str) -> None:
        ended = self.run(*tool)
        check("the run", (ended.returncode, ended.stdout), (0, b""))
        check("the file's content", self.file.read_bytes(), NEW)
        check("the folder", os.listdir(self.folder), ["file"])

    def writes_directly(self, number: int, *tool: str) -> None:
        self.writes(*tool)
        check("the file's number", self.file.stat().st_ino, number)

    def replaces(self, number: int, *tool: str) -> None:
        self.writes(*tool)
        check("whether it is another file", self.file.stat().st_ino != number, True)

    def list(self) -> bytes | None:
        """The file's access control list."""
        return os.getxattr(self.file, ACCESS) if ACCESS in os.listxattr(self.file) else None


def check(what: str, found: object, expected: object) -> None:
    if found != expected:
        fail(f"{what}: {str(found)[:300]} instead of {str(expected)[:300]}")


def list_stays(room: Room) -> None:
    """The file's mode shows the list's mask as the rights of the group, which has none, like the named user."""
    kept = acl(READ | WRITE, 0, 0, READ | WRITE, READ)
    number = room.put_old(0o644)
    os.setxattr(room.file, ACCESS, kept)
    room.writes_directly(number)
    check("the list", room.list(), kept)


def default_list_gives_nothing(room: Room) -> None:
    """The folder's list lets a named user read new files. The old file is from a time before, and doesn't."""
    number = room.put_old(0o640)
    os.setxattr(room.folder, DEFAULT, acl(READ | WRITE, READ, READ, READ, 0))
    room.replaces(number)
    check("the list", room.list(), None)
    check("the mode", oct(room.file.stat().st_mode & 0o7777), oct(0o640))


def new_file_inherits(room: Room) -> None:
    """Without an old file, the folder's list is that of the new one, as for a shell's `>`."""
    os.setxattr(room.folder, DEFAULT, acl(READ | WRITE, READ, READ, READ, 0))
    subprocess.run(["sh", "-c", "umask 022 && : >file"], cwd=room.folder, check=True)
    expected = room.list()
    room.file.unlink()
    room.writes()
    check("the list", (room.list(), expected is None), (expected, False))


def plain_file_is_replaced(room: Room) -> None:
    room.replaces(room.put_old(0o644))


@contextmanager
def mounted_by_itself(room: Room) -> Iterator[int]:
    """The file is one of the same file system, whose number it has."""
    number = room.put_old(0o644)
    subprocess.run(["mount", "--bind", room.file, room.file], check=True)
    try:
        yield number
    finally:
        subprocess.run(["umount", room.file], check=True)


def mount_stays(room: Room) -> None:
    with mounted_by_itself(room) as number:
        room.writes_directly(number)


def without_statx(room: Room) -> None:
    """On Linux before 4.11, and in some sandboxes, a file is replaced and a list is kept, but a mounted file can't be
    replaced."""
    for error in "ENOSYS", "EPERM":
        tool = injecting(f"statx:error={error}")
        room.replaces(room.put_old(0o644), *tool)
        os.setxattr(room.file, ACCESS, acl(READ | WRITE, 0, 0, READ | WRITE, READ))
        room.writes_directly(room.file.stat().st_ino, *tool)
        room.file.unlink()
        with mounted_by_itself(room):
            ended = room.run(*tool)
            busy = b"fault: write\nin the file file: Device or resource busy\n"
            check("the run", (ended.returncode, ended.stderr), (4, busy))
            check("the file's content", room.file.read_bytes(), OLD)
        check("the folder", os.listdir(room.folder), ["file"])


def other_lists(room: Room) -> None:
    """A list of NFS, or one about which the system doesn't say whether there is one."""
    for injected in "lgetxattr:retval=80:when=2+2", "lgetxattr:error=EIO:when=1+2", "lgetxattr:error=EIO:when=2+2":
        room.writes_directly(room.put_old(0o644), *injecting(injected))
    for injected in "lgetxattr:error=EOPNOTSUPP", "fremovexattr:error=EOPNOTSUPP":
        room.replaces(room.put_old(0o644), *injecting(injected))
    room.writes_directly(room.put_old(0o644), *injecting("fremovexattr:error=EPERM"))


def injecting(what: str) -> list[str]:
    return ["strace", "-f", "-qq", "-o", "/dev/null", "-e", f"inject={what}"]


EVERYWHERE: list[Callable[[Room], None]] = [
    list_stays,
    default_list_gives_nothing,
    new_file_inherits,
    plain_file_is_replaced,
    mount_stays,
]
# strace shows the calls of the emulator.
WITHOUT_EMULATOR = [without_statx, other_lists]


def main() -> None:
    if len(sys.argv) < 2:
        sys.exit(__doc__)
    if os.geteuid() != 0:
        fail("it needs root")
    command = [str(pathlib.Path(word).resolve()) if pathlib.Path(word).exists() else word for word in sys.argv[1:]]
    tests = EVERYWHERE + (WITHOUT_EMULATOR if len(command) == 1 else [])
    debian.install({"strace": "strace"})
    with tempfile.TemporaryDirectory() as top:
        subprocess.run(["mount", "-t", "tmpfs", "none", top], check=True)
        try:
            for test in tests:
                folder = pathlib.Path(top, test.__name__)
                folder.mkdir()
                try:
                    test(Room(command, folder))
                except SystemExit as ended:
                    sys.exit(f"{ended} ({test.__name__})")
        finally:
            subprocess.run(["umount", top], check=True)
    passed(f"{len(tests)} tests of the rights of -o FILE")


if __name__ == "__main__":
    main()
