"""Tests ./install in prefixes that somebody else prepared, or changes meanwhile: it writes nothing outside of them."""

from __future__ import annotations

import os
import pathlib
import shutil
from collections.abc import Callable

from harness import Failed, require
from packaging_install import Installer, files, snapshot

NOBODY = 65534
# A command in PATH that replaces a folder by a link once its arguments name that folder or it runs there.
SWAPPING = """\
#!/bin/sh
swap() {{
    [ ! -e "{room}/swapped" ] || return
    touch "{room}/swapped"
    /bin/mv "{folder}" "{room}/aside"
    ln -s "{victim}" "{folder}"
}}
case "$(pwd -P) $*" in
    *"{folder}"*) {work} ;;
    *) exec {command} "$@" ;;
esac
"""
SWAPS = {
    "mkdir": '{command} "$@"; status=$?; [ ! -d "{folder}" ] || swap; exit $status',
    "chmod": 'swap; exec {command} "$@"',
    "rm": 'swap; exec {command} "$@"',
    "cp": 'swap; exec {command} "$@"',
    "mv": 'swap; exec {command} "$@"',
}
# It breaks off the installation at its third file.
BREAKING = """\
#!/bin/sh
echo >>"{room}/moved"
[ "$(grep -c "" "{room}/moved")" -le 3 ] || {{ echo "no space left" >&2; exit 1; }}
exec {command} "$@"
"""


class Prefix:
    """A prefix, and beside it a folder where nothing may change."""

    def __init__(self, program: pathlib.Path, room: pathlib.Path, shell: list[str], variables: dict[str, str]) -> None:
        self.program, self.room, self.variables = program, room, variables
        self.installer = Installer(program, room, *shell)
        self.place, self.victim = room / "prefix", room / "victim"
        self.record = self.place / "share/bcs/installed"
        self.place.mkdir(parents=True)
        self.victim.mkdir()
        (self.victim / "file").write_text("mine\n", encoding="utf-8")

    def install(self, *words: str) -> None:
        self.installer.succeeds("--prefix", str(self.place), *words, part="--library", variables=self.variables)

    def is_refused(self, text: str, prefix: pathlib.Path | None = None) -> None:
        """The installation is refused with this text, and nothing is written."""
        before = snapshot_of_names(self.room)
        words = ["--prefix", str(prefix or self.place)]
        self.installer.fails(text, *words, part="--library", variables=self.variables)
        require(snapshot_of_names(self.room) == before, f"install changes something, and says {text!r}")

    def with_command(self, name: str, script: str, **values: str) -> dict[str, str]:
        """Variables that lead to another command of that name."""
        folder = self.room / "bin"
        folder.mkdir(exist_ok=True)
        path = self.variables.get("PATH") or os.environ["PATH"]
        command = str(shutil.which(name, path=path))
        (folder / name).write_text(script.format(room=self.room, command=command, **values), encoding="utf-8")
        (folder / name).chmod(0o755)
        return {**self.variables, "PATH": f"{folder}:{path}"}

    # ---- The record.

    def test_record_of_another_kind(self) -> None:
        self.record.parent.mkdir(parents=True)
        os.mkfifo(self.record)
        self.is_refused("isn't a record of this script")
        self.record.unlink()
        self.record.symlink_to(self.victim / "file")
        self.is_refused("isn't a record of this script")
        self.record.unlink()
        self.record.mkdir()
        self.is_refused("isn't a record of this script")
        self.record.rmdir()
        self.record.parent.rmdir()
        self.record.parent.symlink_to(self.victim)
        self.is_refused("isn't a folder of")

    def test_planted_lines(self) -> None:
        """Only lines that an installation can have written are kept."""
        self.install()
        before = sorted(self.record.read_bytes().splitlines())
        header = self.place / "include/bcs.h"
        checksum = snapshot(header)[header]
        planted = ["* * * * * root true", "library", f"library\tfile\t{checksum}\t{self.victim}/file", "\0", ""]
        planted += [f"library\tfile\t{checksum}\t{self.place}/{path}" for path in ["lib/other", "../victim/file"]]
        planted += [f"program\tfile\t{checksum}\t{header}", f"library\tfile\t{checksum}\t{header}\tmore"]
        planted += [f"library\tfile\t{what}\t{header}" for what in ["-", checksum[:-1], f"{checksum}0", "g" * 64]]
        planted += [
            f"library\tlink\t../../victim/file\t{self.place}/lib/libbcs.so",
            f"other\tfile\t{checksum}\t{header}",
        ]
        planted += [f"-\tfolder\t-\t{path}" for path in [self.victim, f"{self.place}/lib/other", "/", ""]]
        planted += [f"-\tfolder\tmine\t{self.place}/lib", f"library\tfolder\t-\t{self.place}/lib"]
        with self.record.open("ab") as file:
            file.write("".join(f"{line}\n" for line in planted).encode())
        self.install()
        lines = sorted(self.record.read_bytes().splitlines())
        require(lines == before, f"install keeps planted lines: {set(lines) - set(before)}")
        self.record.write_bytes("".join(f"{line}\n" for line in planted).encode())
        self.installer.fails("none of this was installed", "--prefix", str(self.place), "--uninstall")

    # ---- Links in the prefix.

    def test_links_out(self) -> None:
        for name in ["lib", "lib/pkgconfig", "include", "share", "share/bcs"]:
            link = self.place / name
            link.parent.mkdir(exist_ok=True)
            for target in [os.path.relpath(self.victim, link.parent), str(self.victim), "/", "nowhere", "victim/file"]:
                link.symlink_to(target)
                self.is_refused("isn't a folder of")
                link.unlink()
            link.write_text("a file\n", encoding="utf-8")
            self.is_refused("isn't a folder of")
            link.unlink()

    def test_link_within(self) -> None:
        """A link that stays in the prefix is followed, and all that is behind it is removed."""
        (self.place / "other").mkdir()
        (self.place / "lib").symlink_to("other")
        self.install()
        require((self.place / "other/pkgconfig/bcs.pc").exists(), "install follows no link within the prefix")
        self.install("--uninstall")
        require(files(self.place) == [], f"--uninstall leaves what is behind a link: {files(self.place)}")

    # ---- Folders of others, which only root can have made here.

    def test_folders_of_others(self) -> None:
        for folder in ["lib", "lib/pkgconfig", "share/bcs", "share", "", ".."]:
            path = (self.place / folder).resolve()
            path.mkdir(parents=True, exist_ok=True)
            os.chown(path, NOBODY, NOBODY)
            self.is_refused("belongs to 'nobody', ")
            os.chown(path, 0, 0)
            for mode in [0o775, 0o757, 0o777]:
                path.chmod(mode)
                self.is_refused("can be changed by others ")
            path.chmod(0o1777)
        self.install()
        os.chown(self.record, NOBODY, NOBODY)
        self.is_refused("isn't a record of this script")

    def test_ways_of_others(self) -> None:
        """A prefix that isn't there yet, in somebody's home; and one that somebody's link leads to."""
        home, own = self.room / "home", self.room / "own"
        home.mkdir()
        own.mkdir()
        os.chown(home, NOBODY, NOBODY)
        self.is_refused(f"'{home}' belongs to 'nobody', ", home / "new/prefix")
        (home / "link").symlink_to(own)
        os.chown(home / "link", NOBODY, NOBODY, follow_symlinks=False)
        self.is_refused(f"'{home}' belongs to 'nobody', ", home / "link")
        (self.room / "link").symlink_to(own)
        os.chown(self.room / "link", NOBODY, NOBODY, follow_symlinks=False)
        self.is_refused("is a link of 'nobody', ", self.room / "link")

    # ---- What changes meanwhile.

    def test_swapped_folders(self) -> None:
        """Whatever command it is that runs when a folder becomes a link, nothing is written where the link leads."""
        before, swapped = snapshot(self.victim), 0
        for folder in ["lib", "include", "share/bcs"]:
            for name, work in SWAPS.items():
                for old in ["prefix", "aside", "swapped", "bin"]:
                    shutil.rmtree(self.room / old, ignore_errors=True)
                    (self.room / old).unlink(missing_ok=True)
                values = {"folder": str(self.place / folder), "victim": str(self.victim)}
                command = str(shutil.which(name, path=self.variables.get("PATH")))
                work = work.format(command=command, **values)
                variables = self.with_command(name, SWAPPING, work=work, **values)
                self.installer.run("--prefix", str(self.place), part="--library", variables=variables)
                require(snapshot(self.victim) == before, f"install follows a link that replaces {folder} at {name}")
                swapped += (self.room / "swapped").exists()
        require(swapped >= 8, f"only {swapped} folders were replaced while install ran")

    def test_broken_off(self) -> None:
        """An installation that was broken off can be repeated, and removed: no file counts as changed."""
        (self.place / "mine").write_text("mine\n", encoding="utf-8")
        self.install()
        header = self.place / "include/bcs.h"
        checksum = snapshot(header)[header]
        header.write_text("that of an older version\n", encoding="utf-8")
        record = self.record.read_text(encoding="utf-8")
        self.record.write_text(record.replace(checksum, snapshot(header)[header]), encoding="utf-8")
        for work in ["install", "--uninstall"]:
            (self.room / "moved").unlink(missing_ok=True)
            variables = self.with_command("mv", BREAKING)
            self.installer.fails("no space left", "--prefix", str(self.place), part="--library", variables=variables)
            self.install(*([work] if work.startswith("-") else []))
            said = self.installer.said
            require("since" not in said, f"what was broken off counts as changed: {said!r}")
        require(files(self.place) == ["mine"], f"--uninstall leaves or takes: {files(self.place)}")

    def test_changed_files(self) -> None:
        """They are named and stay, and after --uninstall the next installation says what to do."""
        self.install()
        header, archive, link = (self.place / name for name in ["include/bcs.h", "lib/libbcs.a", "lib/libbcs.so"])
        header.write_text("mine\n", encoding="utf-8")
        archive.unlink()
        archive.symlink_to(self.victim / "file")
        link.unlink()
        link.mkdir()
        (self.place / "lib/pkgconfig/bcs.pc").unlink()
        before = snapshot(header, archive, link)
        for word in ["", "--uninstall"]:
            self.install(*filter(None, [word]))
            said = self.installer.said
            require("changed" in said and all(f"'{path}'" in said for path in before), f"install {word} says: {said!r}")
            require(said.count("'") == 2 * len(before), f"install {word} names more than what has changed: {said!r}")
            require(snapshot(header, archive, link) == before, f"install {word} changes what somebody changed")
            require((self.place / "lib/pkgconfig/bcs.pc").exists() == (word == ""), f"install {word}: another file")
        self.is_refused("you changed it and --uninstall left it; move it away")
        for path in before:
            path.rename(self.room / path.name)
        self.install()
        self.install("--uninstall")
        require(files(self.place) == [], f"--uninstall leaves: {files(self.place)}")


TESTS: list[Callable[[Prefix], None]] = [
    Prefix.test_record_of_another_kind,
    Prefix.test_planted_lines,
    Prefix.test_links_out,
    Prefix.test_link_within,
    Prefix.test_changed_files,
]
# These replace commands in PATH, and the shell of busybox runs its own ones.
TESTS_WITH_COMMANDS: list[Callable[[Prefix], None]] = [Prefix.test_swapped_folders, Prefix.test_broken_off]
TESTS_OF_ROOT: list[Callable[[Prefix], None]] = [Prefix.test_folders_of_others, Prefix.test_ways_of_others]


def test(program: pathlib.Path, room: pathlib.Path, *shell: str, variables: dict[str, str] = {}) -> None:
    """Runs ./install as it is, or with this shell of busybox."""
    tests = [*TESTS, *([] if shell else TESTS_WITH_COMMANDS), *(TESTS_OF_ROOT if os.geteuid() == 0 else [])]
    for run in tests:
        folder = room / ("prefixes of busybox" if shell else "prefixes") / run.__name__
        prefix = Prefix(program, folder, list(shell), variables)
        try:
            run(prefix)
        except Failed as error:
            raise Failed(f"{run.__name__}: {error}") from None
    print(f"packaging: install writes nothing outside of {len(tests)} hostile prefixes{' by busybox' if shell else ''}")


def snapshot_of_names(folder: pathlib.Path) -> list[tuple[str, int, int, int]]:
    """What is in a folder, with kinds and times: FIFOs can't be read."""
    found = []
    for path in [folder, *sorted(folder.rglob("*"))]:
        status = path.lstat()
        found.append((str(path), status.st_mode, status.st_uid, status.st_mtime_ns))
    return found
