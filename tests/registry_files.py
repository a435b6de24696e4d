#!/usr/bin/env python3
"""Tests that `bcs-registry -o FILE` never destroys FILE: tests/registry_files.py PROGRAM.

PROGRAM is the `bcs` that checks the registries. bcs-registry is tried as ./install installs it, alone beside `bcs`.
It needs root, for owners and small file systems, and strace, which kills it at its calls.
"""

from __future__ import annotations

import json
import os
import pathlib
import re
import signal
import stat
import struct
import subprocess
import sys
import tempfile
from collections.abc import Callable
from typing import NamedTuple

import debian
from harness import ROOT, arguments, fail

PYTHON = "/usr/bin/python3"
USER = 65534
OTHER = 1234
OLD = b'{"Old": "UNITSTRUCT"}\n'
NEW = b'{\n  "New": "UNITSTRUCT"\n}\n'
# More than the small file system and the size limit allow.
LARGE = json.dumps({f"N{number}": "UNITSTRUCT" for number in range(6000)}).encode()
SMALL = 100 << 10
NEW_NAME = re.compile(r"\.file\.bcs-[0-9a-f]{8}")
KILLED_AT = "write,fsync,fchown,fchmod,removexattr,fremovexattr,rename,close"
LEAST_KILLS = 20
ACCESS, DEFAULT = "system.posix_acl_access", "system.posix_acl_default"


class Ended(NamedTuple):
    status: int
    output: bytes
    error: str


def check(what: str, found: object, expected: object) -> None:
    if found != expected:
        fail(f"{what}: {str(found)[:400]} instead of {str(expected)[:400]}")


def access_list(owner: int, user: int, group: int, mask: int) -> bytes:
    """An access control list of Linux, which gives rights to the user OTHER, too. Nobody else has any."""
    nobody = 0xFFFFFFFF
    entries = [(0x01, owner, nobody), (0x02, user, OTHER), (0x04, group, nobody), (0x10, mask, nobody)]
    return struct.pack("<I", 2) + b"".join(struct.pack("<HHI", *entry) for entry in [*entries, (0x20, 0, nobody)])


class Room:
    """A folder for one test, in which FILE is called `file`."""

    def __init__(self, top: pathlib.Path, folder: pathlib.Path) -> None:
        self.script, self.folder = top / "bin/bcs-registry", folder
        self.file = folder / "file"
        folder.mkdir()
        self.given = top / f"{folder.name}.json"
        self.given.write_bytes(NEW)

    def run(
        self,
        name: str = "file",
        user: int = 0,
        tool: tuple[str, ...] = (),
        stdout: int = subprocess.PIPE,
        stderr: int = subprocess.PIPE,
    ) -> Ended:
        ended = subprocess.run(
            [*tool, PYTHON, str(self.script), "-o", name, str(self.given)],
            cwd=self.folder,
            stdout=stdout,
            stderr=stderr,
            user=user,
            group=user,
            extra_groups=[],
            umask=0o022,
        )
        return Ended(ended.returncode, ended.stdout or b"", (ended.stderr or b"").decode())

    def succeeds(self, name: str = "file", user: int = 0) -> None:
        check("the run", self.run(name, user), Ended(0, b"", ""))

    def put(self, mode: int = 0o640, owner: int = 0) -> int:
        """Makes FILE. Returns its number, which a file that is written directly keeps."""
        self.file.write_bytes(OLD)
        os.chown(self.file, owner, owner)
        self.file.chmod(mode)
        return self.file.stat().st_ino

    def check_file(self, content: bytes, mode: int = 0o640, owner: int = 0, path: pathlib.Path | None = None) -> None:
        found = (path or self.file).stat()
        rights = (oct(stat.S_IMODE(found.st_mode)), found.st_uid, found.st_gid)
        check("the rights", rights, (oct(mode), owner, owner))
        check("the content", (path or self.file).read_bytes(), content)

    def check_names(self, *names: str) -> None:
        check("the folder", sorted(os.listdir(self.folder)), sorted(names))

    def check_kept(self, ended: Ended, reason: str) -> None:
        check("the report", ended, Ended(4, b"", f"fault: write\nin the file file: {reason}\n"))
        self.check_file(OLD)
        self.check_names("file")

    def is_written_directly(self, number: int, mode: int = 0o640, owner: int = 0, user: int = 0) -> None:
        self.succeeds(user=user)
        check("whether it is the same file", self.file.stat().st_ino == number, True)
        self.check_file(NEW, mode, owner)


# ---- It is replaced.


def is_replaced(room: Room) -> None:
    number = room.put(0o664, OTHER)
    room.succeeds()
    check("whether it is another file", room.file.stat().st_ino != number, True)
    room.check_file(NEW, 0o664, OTHER)
    room.check_names("file")


def is_new(room: Room) -> None:
    room.succeeds()
    room.check_file(NEW, 0o644)
    room.check_names("file")


def links_stay(room: Room) -> None:
    """The target of a chain of links is replaced in its own folder, or made there."""
    (room.folder / "inner").mkdir()
    target = room.folder / "inner/target"
    (room.folder / "inner/second").symlink_to("target")
    room.file.symlink_to("inner/second")
    room.succeeds()
    room.check_file(NEW, 0o644, path=target)
    number = target.stat().st_ino
    room.succeeds()
    check("whether it is another file", target.stat().st_ino != number, True)
    check("the links", (os.readlink(room.file), room.file.resolve()), ("inner/second", target.resolve()))
    check("the inner folder", sorted(os.listdir(target.parent)), ["second", "target"])


def is_its_own_input(room: Room) -> None:
    room.given = room.file
    room.put()
    room.succeeds()
    room.check_file(NEW.replace(b"New", b"Old"))
    room.check_names("file")


# ---- It is kept.


def disk_is_full(room: Room) -> None:
    subprocess.run(["mount", "-t", "tmpfs", "-o", f"size={SMALL},mode=777", "none", room.folder], check=True)
    try:
        room.put()
        room.given.write_bytes(LARGE)
        room.check_kept(room.run(), "No space left on device")
        room.given.write_bytes(NEW)
        room.succeeds()
        room.check_file(NEW)
        # and as its own input
        shorter = LARGE[: SMALL // 2].rpartition(b",")[0] + b"}"
        room.file.write_bytes(shorter)
        room.given = room.file
        ended = room.run()
        check("the report", ended, Ended(4, b"", "fault: write\nin the file file: No space left on device\n"))
        room.check_file(shorter)
        room.check_names("file")
    finally:
        subprocess.run(["umount", room.folder], check=True)


def calls_fail(room: Room) -> None:
    """Whatever fails first, FILE is kept; and if the new file can't have its rights, it is written directly."""
    room.put()
    for call, error, reason in [
        ("fsync", "EIO", "Input/output error"),
        ("rename", "EIO", "Input/output error"),
        ("fsync", "EDQUOT", "Disk quota exceeded"),
    ]:
        said = room.run(tool=("strace", "-qq", "-e", f"trace={call}", "-e", f"inject={call}:error={error}")).error
        check("the report", said.splitlines()[-2:], ["fault: write", f"in the file file: {reason}"])
        room.check_file(OLD)
        room.check_names("file")
    for call, error in [("fchmod", "EPERM"), ("fchown", "EPERM"), ("rename", "EBUSY")]:
        number = room.put(0o666, OTHER)
        inject = f"inject={call}:error={error}"
        check(call, room.run(tool=("strace", "-qq", "-e", f"trace={call}", "-e", inject)).status, 0)
        check("whether it is the same file", room.file.stat().st_ino, number)
        room.check_file(NEW, 0o666, OTHER)
        room.check_names("file")


def is_killed(room: Room) -> None:
    """With and without an old file. `strace` kills it as a call begins, so that the call isn't made."""
    kills = 0
    for has_old in (True, False):
        told = prepared(room, has_old).run(tool=("strace", "-e", f"trace={KILLED_AT}")).error
        calls = re.findall(r"^(\w+)\(", told, re.M)
        # (as Python starts, it closes many files)
        for call, number in {
            (call, calls[: at + 1].count(call)) for at, call in enumerate(calls) if at > len(calls) - 15
        }:
            inject = f"inject={call}:signal=SIGKILL:when={number}"
            ended = prepared(room, has_old).run(tool=("strace", "-e", f"trace={KILLED_AT}", "-e", inject))
            kills += ended.status == -signal.SIGKILL
            if room.file.exists() or has_old:
                check(f"{inject}: the file", room.file.read_bytes() in ([OLD, NEW] if has_old else [NEW]), True)
            left = [name for name in os.listdir(room.folder) if name != "file" and not NEW_NAME.fullmatch(name)]
            check(f"{inject}: other files", left, [])
            room.succeeds()
            check(f"{inject}: the next run", room.file.read_bytes(), NEW)
    check(f"whether {kills} kills are enough", kills >= LEAST_KILLS, True)


def prepared(room: Room, has_old: bool) -> Room:
    for path in room.folder.iterdir():
        path.unlink()
    if has_old:
        room.put()
    return room


def is_synced_before_it_is_renamed(room: Room) -> None:
    """FILE isn't opened to be emptied, and what takes its place is on the disk."""
    room.put(0o664)
    told = room.run(tool=("strace", "-e", "trace=openat,fchmod,write,fsync,rename,ftruncate")).error
    made = re.search(
        r'openat\(AT_FDCWD, "(\.file\.bcs-[0-9a-f]{8})", O_WRONLY\|O_CREAT\|O_EXCL\|O_CLOEXEC, 0600\)', told
    )
    if not made:
        fail(f"there is no new file: {told[-2000:]}")
    places = [told.find(f"{call}(", made.end()) for call in ["fchmod", "write", "fsync"]]
    places += [told.find(f'rename("{made[1]}", "file")')]
    check("the order of calls", places, sorted(places))
    check("whether each call was made", min(places) > 0, True)
    check("whether FILE was emptied", re.findall(r'"file", [A-Z_|]*O_TRUNC', told), [])


# ---- It is written directly.


def hard_link_stays(room: Room) -> None:
    number = room.put()
    (room.folder / "other").hardlink_to(room.file)
    room.is_written_directly(number)
    room.check_names("file", "other")


def special_rights_stay(room: Room) -> None:
    for mode in [0o1644, 0o2640]:
        number = room.put(mode)
        # (Linux takes the set-ID bits away from a file that is written, but not from root's writing)
        room.is_written_directly(number, mode)


def folder_is_read_only(room: Room) -> None:
    number = room.put(0o666)
    room.is_written_directly(number, 0o666, user=USER)


def file_is_of_others(room: Room) -> None:
    number = room.put(0o666, OTHER)
    room.folder.chmod(0o777)
    room.is_written_directly(number, 0o666, OTHER, USER)
    room.check_names("file")


def name_is_long(room: Room) -> None:
    room.file = room.folder / ("n" * 255)
    for _ in range(2):
        room.succeeds(room.file.name)
        room.check_file(NEW, 0o644)
    room.check_names(room.file.name)


def is_mounted(room: Room) -> None:
    room.put()
    other = room.folder / "other"
    other.write_bytes(OLD)
    subprocess.run(["mount", "--bind", other, room.file], check=True)
    try:
        room.succeeds()
    finally:
        subprocess.run(["umount", room.file], check=True)
    check("the file that was mounted", other.read_bytes(), NEW)
    room.check_file(OLD)
    room.check_names("file", "other")


def file_of_proc(room: Room) -> None:
    """No file can be made in its folder, and the system says that the folder isn't there."""
    ended = room.run("/proc/self/comm")
    check("the run", ended, Ended(0, b"", ""))


def devices_stay(room: Room) -> None:
    room.succeeds("/dev/null")
    said = "fault: write\nin the file /dev/full: No space left on device\n"
    check("/dev/full", room.run("/dev/full"), Ended(4, b"", said))
    check("the devices", [stat.S_ISCHR(os.stat(path).st_mode) for path in ("/dev/null", "/dev/full")], [True, True])


def fifo_stays(room: Room) -> None:
    os.mkfifo(room.file)
    reader = os.open(room.file, os.O_RDONLY | os.O_NONBLOCK)
    room.succeeds()
    check("what the reader got", os.read(reader, 1000), NEW)
    os.close(reader)
    check("the FIFO", stat.S_ISFIFO(room.file.stat().st_mode), True)
    room.check_names("file")


def descriptors(room: Room) -> None:
    """By their names, descriptors are used as they are: a log isn't emptied, and a file isn't replaced."""
    for name in ["/dev/stdout", "/dev/fd/1", "/proc/self/fd/1", "/dev/stderr", "/dev/fd/2"]:
        number = room.put()
        is_error = name.endswith(("err", "2"))
        with room.file.open("ab") as log:
            ended = room.run(name, stderr=log.fileno()) if is_error else room.run(name, stdout=log.fileno())
        check(name, ended, Ended(0, b"", ""))
        check(f"{name}: the file", (room.file.read_bytes(), room.file.stat().st_ino), (OLD + NEW, number))
        expected = Ended(0, b"", NEW.decode()) if is_error else Ended(0, NEW, "")
        check(f"{name}: a pipe", room.run(name), expected)
    number = room.put()
    with room.file.open("ab") as log:
        check("another name", room.run("/proc/thread-self/fd/1", stdout=log.fileno()), Ended(0, b"", ""))
    check("another name: the file", (room.file.read_bytes(), room.file.stat().st_ino), (NEW, number))
    said = "fault: write\nin the file /dev/fd/77: Bad file descriptor\n"
    check("a closed descriptor", room.run("/dev/fd/77"), Ended(4, b"", said))
    check("standard output", room.run("-").output, NEW)
    room.check_names("file")


# ---- It is refused.


def file_is_read_only(room: Room) -> None:
    """Like a shell's `>`, it needs the right to write the file, and not only its folder."""
    room.put(0o640)
    room.folder.chmod(0o777)
    room.check_kept(room.run(user=USER), "Permission denied")


def links_of_others(room: Room) -> None:
    """A link to nothing, by which somebody else decides where a file is made. One of the folder's owner is followed."""
    room.file.symlink_to(room.folder / "target")
    os.chown(room.file, OTHER, OTHER, follow_symlinks=False)
    for mode in (0o755, 0o777, 0o1777):
        room.folder.chmod(mode)
        said = "fault: write\nin the file file: Permission denied\n"
        check("the run", room.run(), Ended(4, b"", said))
        room.check_names("file")
    os.chown(room.folder, OTHER, OTHER)
    room.folder.chmod(0o755)
    room.succeeds()
    room.check_file(NEW, 0o644, path=room.folder / "target")


def names_that_lead_nowhere(room: Room) -> None:
    room.file.symlink_to("file")
    (room.folder / "folder").mkdir()
    for name, reason in [
        ("file", "Too many levels of symbolic links"),
        ("folder", "Is a directory"),
        ("missing/file", "No such file or directory"),
        ("file/file", "Too many levels of symbolic links"),
    ]:
        said = f"fault: write\nin the file {name}: {reason}\n"
        check(name, room.run(name), Ended(4, b"", said))
    room.check_names("file", "folder")


# ---- Access control lists.


def list_stays(room: Room) -> None:
    """A file with a list keeps it: nobody gets a right, and nobody loses one."""
    for rights in [access_list(6, 0, 0, 6), access_list(6, 6, 0, 6)]:
        number = room.put()
        os.setxattr(room.file, ACCESS, rights)
        room.succeeds()
        check("whether it is the same file", room.file.stat().st_ino, number)
        check("the content", room.file.read_bytes(), NEW)
        check("the list", os.getxattr(room.file, ACCESS), rights)


def list_of_the_folder(room: Room) -> None:
    """The file that takes FILE's place doesn't inherit it: the user whom it names may not read FILE."""
    room.put()
    room.folder.chmod(0o755)
    os.setxattr(room.folder, DEFAULT, access_list(7, 6, 5, 7))
    room.succeeds()
    room.check_file(NEW)
    check("the lists", ACCESS in os.listxattr(room.file), False)
    seen = subprocess.run(["cat", room.file], user=OTHER, group=OTHER, extra_groups=[], capture_output=True)
    check("what the user sees", (seen.returncode, seen.stdout), (1, b""))


TESTS: list[Callable[[Room], None]] = [
    is_replaced,
    is_new,
    links_stay,
    is_its_own_input,
    disk_is_full,
    calls_fail,
    is_killed,
    is_synced_before_it_is_renamed,
    hard_link_stays,
    special_rights_stay,
    folder_is_read_only,
    file_is_of_others,
    name_is_long,
    is_mounted,
    file_of_proc,
    devices_stay,
    fifo_stays,
    descriptors,
    file_is_read_only,
    links_of_others,
    names_that_lead_nowhere,
    list_stays,
    list_of_the_folder,
]


def main() -> None:
    tested = pathlib.Path(arguments(__doc__, "program").program)
    if os.geteuid() != 0:
        fail("it needs root")
    debian.install({"strace": "strace", PYTHON: "python3"})
    with tempfile.TemporaryDirectory() as name:
        top = pathlib.Path(name)
        top.chmod(0o755)
        (top / "bin").mkdir()
        for source, target in [(tested, "bcs"), (ROOT / "bindings/python/bcs_proved/registries.py", "bcs-registry")]:
            (top / "bin" / target).write_bytes(source.read_bytes())
            (top / "bin" / target).chmod(0o755)
        for test in TESTS:
            try:
                test(Room(top, top / test.__name__))
            except SystemExit as ended:
                sys.exit(f"{ended} ({test.__name__})")
    print(f"registry files: {len(TESTS)} tests of bcs-registry -o FILE")


if __name__ == "__main__":
    main()
