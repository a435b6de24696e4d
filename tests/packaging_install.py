"""Tests ./install: what it installs and refuses, and that --uninstall removes what was installed and nothing else."""

from __future__ import annotations

import gzip
import hashlib
import os
import pathlib
import shutil
import subprocess
from collections.abc import Mapping

from harness import ROOT, require

ESCAPE = "a\x1b[2Jb"


class Installer:
    """Runs ./install, with the program that it is to install."""

    def __init__(self, program: pathlib.Path, room: pathlib.Path, *command: str) -> None:
        self.room = room
        self.command = [*command, str(ROOT / "install")]
        self.environment = {**os.environ, "BCS": str(program), "DESTDIR": ""}
        self.said = ""

    def run(
        self,
        *words: str,
        part: str = "--program",
        folder: pathlib.Path | None = None,
        variables: Mapping[str, str] = {},
        user: int | None = None,
    ) -> bool:
        """Whether it succeeds. `said` is what it printed."""
        ran = subprocess.run(
            [*self.command, part, *words],
            cwd=folder or self.room,
            env={**self.environment, **variables},
            stdin=subprocess.DEVNULL,
            stdout=subprocess.PIPE,
            stderr=subprocess.STDOUT,
            timeout=600,
            user=user,
            group=user,
        )
        self.said = ran.stdout.decode(errors="replace")
        return ran.returncode == 0

    def succeeds(
        self,
        *words: str,
        part: str = "--program",
        folder: pathlib.Path | None = None,
        variables: Mapping[str, str] = {},
    ) -> None:
        done = self.run(*words, part=part, folder=folder, variables=variables)
        require(done, f"install {part} {words!r} fails: {self.said!r}")

    def fails(self, text: str, *words: str, part: str = "--program", variables: Mapping[str, str] = {}) -> None:
        """It fails, and says the text in the only line that it prints."""
        done = self.run(*words, part=part, variables=variables)
        require(not done, f"install {part} {words!r} succeeds")
        is_one_line = self.said.startswith("install: ") and self.said.count("\n") == 1
        require(is_one_line and text in self.said, f"install {part} {words!r} says: {self.said!r}")


def snapshot(*folders: pathlib.Path) -> dict[pathlib.Path, str]:
    """What is in the folders: names, contents and targets of links."""
    return {path: described(path) for folder in folders for path in [folder, *folder.rglob("*")]}


def described(path: pathlib.Path) -> str:
    if path.is_symlink():
        return f"link {path.readlink()}"
    return "folder" if path.is_dir() else hashlib.sha256(path.read_bytes()).hexdigest()


def files(folder: pathlib.Path) -> list[str]:
    return sorted(
        str(path.relative_to(folder)) for path in folder.rglob("*") if path.is_file() and not path.is_symlink()
    )


def test_installing(program: pathlib.Path, room: pathlib.Path, manual: bytes) -> None:
    # (a shell's `echo` may read the second part as a tab)
    place, installer = room / "a\\tplace", Installer(program, room)
    (place / "share/man").mkdir(parents=True)
    (place / "share/other").write_text("other\n", encoding="utf-8")
    before, to_place = snapshot(place), ("--prefix", str(place))
    installer.succeeds(*to_place)
    require(installer.said.count("\n") == 1, f"install says: {installer.said!r}")
    require((place / "bin/bcs").read_bytes() == program.read_bytes(), "install installs another program")
    installed = gzip.decompress((place / "share/man/man1/bcs.1.gz").read_bytes())
    require(installed == manual, "install installs another manual")
    installer.succeeds(*to_place)
    installer.succeeds(*to_place, "--uninstall")
    require(snapshot(place) == before, f"--uninstall leaves or takes: {snapshot(place)}")
    installer.succeeds(*to_place)
    with (place / "share/zsh/site-functions/_bcs").open("a", encoding="utf-8") as file:
        file.write("changed\n")
    installer.succeeds(*to_place, "--uninstall")
    require(files(place) == ["share/other", "share/zsh/site-functions/_bcs"], "--uninstall of a changed file")
    installer.fails("no record says that this script installed it", *to_place)
    installer.succeeds("--prefix", "/usr", "--no-record", variables={"DESTDIR": str(room / "staged")})
    require(len(files(room / "staged")) == 7, "install with DESTDIR")


def test_folders(program: pathlib.Path, room: pathlib.Path) -> None:
    """Folders that are made, relative ones, and those that are reached by links."""
    deep, installer = room / "deep", Installer(program, room)
    deep.mkdir()
    installer.succeeds("--prefix", str(deep / "er/est"))
    installer.succeeds("--prefix", str(deep / "er/est"), "--uninstall")
    require(list(deep.rglob("*")) == [deep / "er"], "--uninstall of a new folder leaves or takes something")
    (room / "way").symlink_to("deep/er")
    installer.succeeds("--prefix", "nowhere/.././/way/./est/../more")
    require((deep / "er/more/bin/bcs").exists(), "install with a relative prefix behind a link")
    installer.succeeds("--prefix=../more", "--uninstall", folder=deep / "er/more")
    require(list(deep.rglob("*")) == [deep / "er"], "--uninstall with a relative prefix")
    (room / "loop").symlink_to("loop/x")
    installer.fails("too many links", "--prefix", str(room / "loop"))


def test_parts(program: pathlib.Path, room: pathlib.Path) -> None:
    """Each part is removed alone, and what they share stays until the last."""
    place, installer = room / "parts", Installer(program, room)
    both = "the program, its manual and completions, and the library of C"
    installer.succeeds("--library", "--prefix", str(place))
    require(installer.said == f"install: 12 files in {place}: {both}\n", f"install says: {installer.said!r}")
    installer.succeeds("--prefix", str(place), "--uninstall")
    library = ["bcs.pc", "bcs.h", "libbcs.a", "libbcs.so.0", "installed"]
    require({pathlib.Path(name).name for name in files(place)} == {*library}, f"without the program: {files(place)}")
    installer.fails("none of this was installed", "--prefix", str(place), "--uninstall")
    installer.succeeds("--prefix", str(place))
    installer.succeeds("--prefix", str(place), "--uninstall", part="--library")
    require(len(files(place)) == 8, f"without the library: {files(place)}")
    installer.succeeds("--prefix", str(place), "--uninstall")
    require(not place.exists(), "--uninstall of the last part leaves the folder")


def test_arguments(program: pathlib.Path, room: pathlib.Path) -> None:
    installer = Installer(program, room)
    installer.fails("unknown option: '--nothing'", "--nothing")
    installer.fails("--prefix needs a folder", "--prefix")
    installer.fails("the shell left the ~ as it is", "--prefix=~/opt")
    installer.fails("the shell left the ~ as it is", "--prefix", "~")
    installer.fails("nothing was installed", "--uninstall", "--prefix", str(room / "nowhere"))
    installer.fails("can't write", "--prefix", "/proc/none")
    print("packaging: install and --uninstall")


def test_machines(program: pathlib.Path, room: pathlib.Path) -> None:
    """Each kind of machine, by the name that a `uname` of its own gives it, gets the library of its folder in dist/."""
    place, installer = room / "machine", Installer(program, room)
    uname = room / "uname/uname"
    uname.parent.mkdir()
    path = f"{uname.parent}:{os.environ['PATH']}"
    for machine in ["x86_64", "aarch64", "riscv64"]:
        uname.write_text(f'#!/bin/sh\n[ "$1" = -s ] && echo Linux || echo {machine}\n', encoding="utf-8")
        uname.chmod(0o755)
        to_place = ("--prefix", str(place / machine))
        if machine == "riscv64":
            to_new = ("--prefix", str(room / "new" / machine))
            installer.fails("Linux-riscv64", *to_new, part="--library", variables={"PATH": path})
            continue
        installer.succeeds(*to_place, part="--library", variables={"PATH": path})
        expected = (ROOT / f"dist/{machine}-linux/libbcs.so").read_bytes()
        require((place / machine / "lib/libbcs.so.0").read_bytes() == expected, f"install on {machine}")
        described_level = "x86-64" in (place / machine / "lib/pkgconfig/bcs.pc").read_text(encoding="utf-8")
        require(described_level == (machine == "x86_64"), f"bcs.pc on {machine}")
    require(not (room / "new").exists(), "install on riscv64 leaves a folder")
    print("packaging: install chooses the library for the machine")


def test_control_characters(program: pathlib.Path, room: pathlib.Path) -> None:
    installer = Installer(program, room)
    for name in ["a\tb", "\nab", "ab\n", ESCAPE, "a\x7f"]:
        for work in ["--program", "--uninstall"]:
            installer.fails("control characters", work, "--prefix", f"{room}/{name}")
            installer.fails("control characters", work, variables={"DESTDIR": f"{room}/{name}"})
    for number, target in enumerate(["a\tb", "a\n"]):
        (room / f"link{number}").symlink_to(target)
        installer.fails("control characters", "--prefix", f"{room}/link{number}/x")
        installer.fails("control characters", "--prefix", f"{room}/link{number}")
    print("packaging: install refuses control characters")


def test_names_for_pkg_config(program: pathlib.Path, room: pathlib.Path) -> None:
    """bcs.pc would name another folder for these, and programs would be built with the header that is there."""
    installer = Installer(program, room)
    for name in ["a#b", "a$b", "a'b", 'a"b', "a "]:
        done = installer.run("--prefix", f"{room}/new/{name}", part="--library")
        require(
            not done and "bcs.pc can't name" in installer.said, f"--library --prefix {name!r} says: {installer.said!r}"
        )
        require(not (room / "new").exists(), f"--library --prefix {name!r} leaves a folder")
    print("packaging: install refuses folders that bcs.pc can't name")


class HostileRecord:
    """A prefix with an edited record and with links that lead out of it. Beside it are files that must stay."""

    def __init__(self, program: pathlib.Path, room: pathlib.Path) -> None:
        self.room, self.installer = room, Installer(program, room)
        self.place, self.mine, self.beside = room / "prefix", room / "mine", room / "prefix-beside"
        self.record = self.place / "share/bcs/installed"
        for folder in [self.mine / "deep", self.mine / "empty", self.beside, self.place / "share", room / "empty"]:
            folder.mkdir(parents=True)
        share = self.place / "share"
        for file in [
            self.mine / "file",
            self.mine / "deep/file",
            self.beside / "file",
            share / "other",
            share / ESCAPE,
        ]:
            file.write_text("mine\n", encoding="utf-8")
        (self.mine / "link").symlink_to("file")
        self.remember()

    def remember(self) -> None:
        self.before = snapshot(self.mine, self.beside)

    def unharmed(self, case: str) -> None:
        is_same = snapshot(self.mine, self.beside) == self.before
        is_there = (self.room / "empty").is_dir() and (self.place / "share/other").exists()
        require(is_same and is_there, f"--uninstall removes what is beside its folder: {case}")

    def lines(self) -> bytes:
        """Lines by which something of another is to be removed."""
        place, mine = self.place, self.mine
        sum_of_mine = described(mine / "file")
        paths = [f"{mine}/file", f"{place}/../mine/file", f"{place}/./../mine/file", f"{place}//../mine/file"]
        paths += [f"{place}/out/file", f"{place}/out/deep/file", f"{place}/share/../../mine/file", "mine/file"]
        paths += ["../mine/file", "file", f"{place}/outfile/../mine/file", f"{place}-beside/file", ""]
        found = [f"program\tfile\t{sum_of_mine}\t{path}" for path in [*paths, f"{place}/outfile"]]
        links = [f"{mine}/link", f"{place}/../mine/link", f"{place}/out/link"]
        found += [f"program\tlink\tfile\t{path}" for path in links]
        found += [f"program\tanything\t-\t{path}" for path in [f"{mine}/file", f"{place}/share/other"]]
        folders = [f"{mine}/empty", f"{place}/../mine/empty", f"{place}/out/empty", "empty", "/empty"]
        found += [f"-\tfolder\t-\t{path}" for path in [*folders, f"{self.room}/empty", ""]]
        found += [f"program\tfile\t-\t{place}/share/{ESCAPE}", "program", "file", "", "\t\t\t", "\0\tfile"]
        return "".join(f"{line}\n" for line in found).encode()

    def edit(self, record: pathlib.Path) -> None:
        with record.open("ab") as file:
            file.write(self.lines())

    def install(self) -> None:
        self.installer.succeeds("--prefix", str(self.place))

    def test_edited_record(self) -> None:
        self.install()
        (self.place / "out").symlink_to(self.mine)
        (self.place / "outfile").symlink_to(self.mine / "file")
        self.edit(self.record)
        self.installer.succeeds("--prefix", str(self.place), "--uninstall", folder=self.mine)
        self.unharmed("an edited record")
        is_gone = not (self.place / "bin/bcs").exists() and not self.record.exists()
        require(is_gone, "an edited record keeps what was installed")
        has_links = (self.place / "out").is_symlink() and (self.place / "outfile").is_symlink()
        require(has_links, "an edited record removes links of another")
        said = self.installer.said
        require(said.removesuffix("\n").isprintable(), f"an edited record is printed: {said!r}")

    def test_linked_folder(self) -> None:
        """A folder of the prefix is a link to where the same files are."""
        self.install()
        (self.place / "bin").rename(self.mine / "bin")
        (self.place / "bin").symlink_to(self.mine / "bin")
        self.remember()
        self.installer.succeeds("--prefix", str(self.place), "--uninstall")
        self.unharmed("a folder that is a link")
        said = self.installer.said
        require("left alone, " in said and "/bin/bcs" in said, f"a folder that is a link isn't named: {said!r}")
        (self.place / "bin").unlink()

    def test_linked_record(self) -> None:
        """The record is a link, or its folder is."""
        self.install()
        self.record.rename(self.mine / "installed")
        self.record.symlink_to(self.mine / "installed")
        self.remember()
        self.installer.fails("nothing was installed", "--prefix", str(self.place), "--uninstall")
        self.unharmed("a record that is a link")
        self.record.unlink()
        self.record.parent.rmdir()
        (self.mine / "bcs").mkdir()
        (self.mine / "installed").rename(self.mine / "bcs/installed")
        self.record.parent.symlink_to(self.mine / "bcs")
        self.remember()
        self.installer.fails("nothing was installed", "--prefix", str(self.place), "--uninstall")
        self.unharmed("a record behind a link")

    def test_other_root(self) -> None:
        """A prefix of / in another root, and a root whose prefix leads out of it."""
        root = self.room / "root"
        self.installer.succeeds("--prefix", "/", variables={"DESTDIR": str(root)})
        self.edit(root / "share/bcs/installed")
        self.installer.succeeds("--prefix", "/", "--uninstall", folder=self.mine, variables={"DESTDIR": str(root)})
        self.unharmed("the prefix /")
        require(not (root / "bin/bcs").exists(), "--uninstall of the prefix /")
        self.installer.succeeds("--prefix", "/opt", variables={"DESTDIR": str(root)})
        (root / "opt").rename(self.mine / "opt")
        (root / "opt").symlink_to(self.mine / "opt")
        self.remember()
        self.installer.fails(
            "nothing was installed", "--prefix", "/opt", "--uninstall", variables={"DESTDIR": str(root)}
        )
        self.unharmed("a root whose prefix leads out of it")


def test_hostile_record(program: pathlib.Path, room: pathlib.Path) -> None:
    hostile = HostileRecord(program, room)
    hostile.test_edited_record()
    hostile.test_linked_folder()
    hostile.test_linked_record()
    hostile.test_other_root()
    print("packaging: --uninstall removes nothing beside its folder, whatever its record says")


def test(program: pathlib.Path, room: pathlib.Path, manual: bytes) -> None:
    test_installing(program, room, manual)
    test_folders(program, room)
    test_parts(program, room)
    test_arguments(program, room)
    test_machines(program, room)
    test_control_characters(program, room)
    test_names_for_pkg_config(program, room)
    test_hostile_record(program, room)


def test_busybox(program: pathlib.Path, room: pathlib.Path) -> pathlib.Path:
    """The shell and the tools of Alpine install and remove the same. Returns the folder with them."""
    tools, busybox = room / "busybox", shutil.which("busybox")
    tools.mkdir()
    for name in subprocess.run(["busybox", "--list"], capture_output=True, text=True, check=True).stdout.split():
        (tools / name).symlink_to(str(busybox))
    installer, place = Installer(program, room, str(tools / "sh")), room / "by busybox"
    installer.succeeds("--library", "--prefix", str(place), variables={"PATH": str(tools)})
    Installer(program, room).succeeds("--library", "--prefix", str(room / "by debian"))
    others = snapshot(room / "by debian")
    for path, found in snapshot(place).items():
        other = room / "by debian" / path.relative_to(place)
        is_of_its_own = path.name in ("bcs.pc", "bcs.1.gz", "bcs-registry.1.gz", "installed")
        require(is_of_its_own or found == others.get(other), f"busybox installs another {path.relative_to(place)}")
    require(files(place) == files(room / "by debian"), "busybox installs other files")
    installer.succeeds("--library", "--prefix", str(place), "--uninstall", variables={"PATH": str(tools)})
    require(not place.exists(), "--uninstall by busybox leaves something")
    print("packaging: install and --uninstall by busybox")
    return tools
