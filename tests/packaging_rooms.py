"""Tests the folder .bcs-install, in which ./install works: nobody else gets in, one run works at a time, and the next
one removes what a killed one left."""

from __future__ import annotations

import contextlib
import itertools
import multiprocessing
import os
import pathlib
import shutil
import signal
import subprocess
from collections.abc import Callable

from harness import Failed, require
from packaging_install import Installer, files
from packaging_prefixes import NOBODY, snapshot_of_names

ROOM = ".bcs-install"
# A command in PATH. At a given call of any such command, it kills the whole process group before or after the call.
KILLING = """\
#!/bin/sh
echo >>"{room}/calls"
[ "$(grep -c "" "{room}/calls")" -eq "$KILL_AT" ] || exec {command} "$@"
[ "$KILL_WHEN" = before ] || {command} "$@"
kill -9 0
"""
KILLED_AT = ["mkdir", "mv", "rm", "rmdir", "chmod", "ln"]
LEAST_CALLS = 30
# How many calls are between two tries, since each takes seconds. (The moments before and after a call alternate.)
STEP = 5
SLOW = '#!/bin/sh\nsleep 0.1\nexec {command} "$@"\n'


class Room(Installer):
    """A prefix with a file of somebody, and commands that can be replaced."""

    def __init__(self, program: pathlib.Path, room: pathlib.Path) -> None:
        super().__init__(program, room)
        self.place, self.victim = room / "prefix", room / "victim"
        (self.place / "share").mkdir(parents=True)
        (self.place / "share/mine").write_text("mine\n", encoding="utf-8")
        self.victim.mkdir()
        self.to_place = ("--prefix", str(self.place))

    def path_with(self, names: list[str], script: str) -> str:
        """PATH with other commands of these names."""
        folder = self.room / "bin"
        folder.mkdir()
        for name in names:
            text = script.format(room=self.room, command=shutil.which(name))
            (folder / name).write_text(text, encoding="utf-8")
            (folder / name).chmod(0o755)
        return f"{folder}:{os.environ['PATH']}"

    def start(self, part: str, **variables: str) -> subprocess.Popen[bytes]:
        return subprocess.Popen(
            [*self.command, part, *self.to_place],
            cwd=self.room,
            env={**self.environment, **variables},
            stdin=subprocess.DEVNULL,
            stdout=subprocess.PIPE,
            stderr=subprocess.STDOUT,
            start_new_session=True,
        )

    def names(self) -> list[str]:
        """What is in the prefix, files and folders."""
        return sorted(str(path.relative_to(self.place)) for path in self.place.rglob("*"))

    def require_clean(self, case: str) -> None:
        require(self.names() == ["share", "share/mine"], f"{case} leaves or takes: {self.names()}")


def test_modes(room: Room) -> None:
    """Whatever the umask and the modes of what is copied: only the owner may change it, and everybody may use it."""
    copied = room.room / "program"
    copied.write_bytes(pathlib.Path(room.environment["BCS"]).read_bytes())
    copied.chmod(0o777)
    for umask in [0, 0o077]:
        before = os.umask(umask)
        try:
            room.succeeds("--library", *room.to_place, variables={"BCS": str(copied)})
        finally:
            os.umask(before)
        for path in room.place.rglob("*"):
            is_run = path.is_dir() or path.parent.name == "bin" or path.name == "libbcs.so.0"
            if path.name != "mine" and path != room.place / "share" and not path.is_symlink():
                mode = path.stat().st_mode & 0o7777
                require(mode == (0o755 if is_run else 0o644), f"{path} has the mode {mode:o} with umask {umask:o}")
        require(len(files(room.place)) == 13, f"it installs {files(room.place)}")
        room.succeeds("--library", *room.to_place, "--uninstall")


def attack(folder: pathlib.Path, victim: pathlib.Path, seen: pathlib.Path) -> None:
    """As the owner of the folder, replaces each new entry by a link to the victim, and notes its name."""
    os.setgroups([])
    os.setgid(NOBODY)
    os.setuid(NOBODY)
    while True:
        for name in os.listdir(folder):
            with seen.open("a", encoding="utf-8") as file:
                file.write(f"{name}\n")
            with contextlib.suppress(OSError):
                (folder / name).rename(f"{seen}.{name}")
                (folder / name).symlink_to(victim)


def test_hostile_temporary_folder(room: Room) -> None:
    """Root's TMPDIR is a folder of somebody who replaces what is made there: nothing is."""
    folder, seen = room.room / "tmp", room.room / "seen"
    folder.mkdir()
    for path in [room.room, folder]:
        path.chmod(0o755)
        os.chown(path, NOBODY, NOBODY)
    place = pathlib.Path(f"{room.room}.guarded")
    to_place = ("--prefix", str(place))
    attacker = multiprocessing.get_context("fork").Process(target=attack, args=(folder, room.victim, seen))
    attacker.start()
    try:
        # (until the attack works)
        (folder / "begin").touch()
        while not (folder / "begin").is_symlink():
            require(attacker.is_alive(), "there is no attack")
        room.succeeds(*to_place, variables={"TMPDIR": str(folder)})
        require(set(seen.read_text(encoding="utf-8").split()) == {"begin"}, "install makes something in TMPDIR")
        room.succeeds(*to_place, "--uninstall", variables={"TMPDIR": str(folder)})
    finally:
        attacker.kill()
        attacker.join()
    require(set(seen.read_text(encoding="utf-8").split()) == {"begin"}, "--uninstall makes something in TMPDIR")
    require(list(room.victim.iterdir()) == [], "install writes where a link in TMPDIR leads")
    require(not place.exists(), "--uninstall with a hostile TMPDIR")


def test_planted_room(room: Room) -> None:
    """A room that isn't one of root's is refused, and nothing is written where it leads."""
    own = room.victim / "own"
    own.mkdir(mode=0o700)
    (own / "kept").write_text("kept\n", encoding="utf-8")
    plants: list[Callable[[pathlib.Path], object]] = [
        lambda path: path.symlink_to(own),
        lambda path: path.symlink_to("nowhere"),
        pathlib.Path.touch,
        os.mkfifo,
        lambda path: path.mkdir(mode=0o755),
        lambda path: [path.mkdir(mode=0o700), os.chown(path, NOBODY, NOBODY)],  # type: ignore[func-returns-value]
        lambda path: shutil.copytree(own, path),
    ]
    for number, plant in enumerate(plants):
        for folder in ["", "lib"][: 1 if number == len(plants) - 1 else 2]:
            (room.place / folder).mkdir(exist_ok=True)
            plant(room.place / folder / ROOM)
            before = snapshot_of_names(room.victim)
            done = room.run(*room.to_place, part="--library")
            require(not done and ROOM in room.said, f"with the planted room {number}, install says: {room.said!r}")
            require("root" not in room.said.replace(str(room.room), ""), f"install says: {room.said!r}")
            require(snapshot_of_names(room.victim) == before, f"install follows the planted room {number}")
            remove_all(room.place / folder / ROOM)
    room.succeeds(*room.to_place, "--uninstall", part="--library")


def remove_all(path: pathlib.Path) -> None:
    if path.is_dir() and not path.is_symlink():
        shutil.rmtree(path)
    else:
        path.unlink()


def test_two_at_once(room: Room) -> None:
    """The second one waits. So both parts are recorded, and can be removed."""
    path = room.path_with(["mkdir", "mv"], SLOW)
    both = [room.start(part, PATH=path) for part in ["--program", "--library"]]
    said = [process.communicate(timeout=600)[0].decode() for process in both]
    require([process.returncode for process in both] == [0, 0], f"two at once say: {said}")
    require(any("waiting for another ./install" in text for text in said), f"none of two waits: {said}")
    require(len(files(room.place)) == 13, f"two at once install {files(room.place)}")
    room.succeeds("--library", *room.to_place, "--uninstall")
    room.require_clean("--uninstall after two at once")


def test_killed(room: Room) -> None:
    """Whenever it is killed, the next run removes what is left, and no file counts as changed."""
    path = room.path_with(KILLED_AT, KILLING)
    kills = 0
    for number, (when, work) in zip(itertools.count(1, STEP), itertools.cycle(MOMENTS)):
        (room.room / "calls").unlink(missing_ok=True)
        with room.start("--library", PATH=path, KILL_AT=str(number), KILL_WHEN=when) as process:
            process.communicate(timeout=600)
        case = f"an installation that is killed {when} call {number}"
        if process.returncode == 0:
            break
        require(process.returncode == -signal.SIGKILL, f"{case} ends with {process.returncode}")
        kills += 1
        if work == "repeat":
            room.succeeds(*room.to_place, part="--library")
            require("changed" not in room.said, f"after {case} it says: {room.said!r}")
            room.succeeds(*room.to_place, "--uninstall", part="--library")
        elif not room.run(*room.to_place, "--uninstall", part="--library"):
            is_refused = "nothing was installed" in room.said or "none of this was installed" in room.said
            require(is_refused, f"after {case}, --uninstall says: {room.said!r}")
        room.require_clean(case)
    require(kills * STEP >= LEAST_CALLS, f"it was only killed {kills} times")


MOMENTS = [("before", "repeat"), ("after", "remove"), ("before", "remove"), ("after", "repeat")]


def test_refused(room: Room) -> None:
    """A refused prefix keeps nothing, and the message says why."""
    (room.place / "lib").mkdir()
    (room.place / "lib").chmod(0o555)
    room.room.chmod(0o755)
    cases = [(room.place, room.place), (room.place / "new/folder", room.place)]
    for prefix, folder in cases:
        before = snapshot_of_names(room.place)
        refused = room.run("--prefix", str(prefix), part="--library", user=NOBODY)
        require(not refused and f"you may not write to '{folder}' (drwxr-xr-x, of 'root')" in room.said, room.said)
        require(snapshot_of_names(room.place) == before, f"a refused prefix keeps something: {room.names()}")
    for path in [room.place, *room.place.rglob("*")]:
        os.chown(path, NOBODY, NOBODY)
    before = snapshot_of_names(room.place)
    refused = room.run(*room.to_place, part="--library", user=NOBODY)
    require(
        not refused and f"you may not write to '{room.place}/lib' (dr-xr-xr-x, of 'nobody')" in room.said, room.said
    )
    require(snapshot_of_names(room.place) == before, f"a refused prefix keeps something: {room.names()}")


def test_full_disk(room: Room) -> None:
    subprocess.run(["mount", "-t", "tmpfs", "-o", "size=1m,mode=755", "none", room.place], check=True)
    try:
        (room.place / "share").mkdir()
        (room.place / "share/mine").write_text("mine\n", encoding="utf-8")
        room.fails("No space left on device", *room.to_place, part="--library")
        require("as root" not in room.said, f"with a full disk, it says: {room.said!r}")
        room.require_clean("an installation on a full disk")
    finally:
        subprocess.run(["umount", room.place], check=True)


TESTS: list[Callable[[Room], None]] = [test_modes, test_two_at_once, test_killed]
TESTS_OF_ROOT: list[Callable[[Room], None]] = [
    test_hostile_temporary_folder,
    test_planted_room,
    test_refused,
    test_full_disk,
]


def test(program: pathlib.Path, room: pathlib.Path) -> None:
    tests = [*TESTS, *(TESTS_OF_ROOT if os.geteuid() == 0 else [])]
    # (another user has to get into some of the folders)
    room.chmod(0o755)
    for run in tests:
        folder = room / "rooms" / run.__name__
        folder.mkdir(parents=True)
        try:
            run(Room(program, folder))
        except Failed as error:
            raise Failed(f"{run.__name__}: {error}") from None
    print(f"packaging: install leaves nothing of its own folder, and lets nobody in: {len(tests)} tests")
