"""The parts of tests/packages.py that make the packages, and check their files without installing them."""

from __future__ import annotations

import hashlib
import pathlib
import re
import shutil
import sys
from typing import NamedTuple

from harness import ROOT, Failed, Variables, Word, ran, refused, run

# The list of licences of Debian's package node-spdx-license-ids.
SPDX_LICENCES = "/usr/share/nodejs/spdx-license-ids/index.json"
# The descriptions of packages that name the licence and the version.
DESCRIPTIONS = ["bindings/rust/Cargo.toml", "bindings/python/pyproject.toml", "bindings/web/package.json"]


class Rooms(NamedTuple):
    """The folders of a run."""

    top: pathlib.Path

    @property
    def tree(self) -> pathlib.Path:
        """A copy of the repository."""
        return self.top / "tree"

    @property
    def made(self) -> pathlib.Path:
        """The packages."""
        return self.top / "made"

    def debian(self, kind: str) -> pathlib.Path:
        """A bare Debian, of a kind that tests/unpack_debian.sh knows."""
        return self.top / kind

    def package(self, pattern: str) -> pathlib.Path:
        """The only package with such a name."""
        found = sorted(self.made.glob(pattern))
        if len(found) != 1:
            raise Failed(f"{pattern}: {len(found)} packages, and not one: {found}")
        return found[0]


def last_line(path: pathlib.Path) -> str:
    return path.read_text(encoding="utf-8").splitlines()[-1] if path.exists() else ""


def copy_repository(rooms: Rooms) -> str:
    """What a clone has, with changes that aren't committed yet, and with current files in dist/."""
    for name in run("git", "ls-files", "-z", "--cached", "--others", "--exclude-standard").split("\0"):
        if name and (ROOT / name).exists():
            (rooms.tree / name).parent.mkdir(parents=True, exist_ok=True)
            shutil.copy2(ROOT / name, rooms.tree / name)
    sources = "sources " + run(rooms.tree / "tools/dist_sources.sh").strip()
    if last_line(ROOT / "dist/BUILT_FROM") == sources:
        commit_all(rooms.tree)
        return "packages are made of dist/"
    if last_line(ROOT / "out/dist/BUILT_FROM") != sources:
        raise Failed("dist/ and out/dist are older than the sources: run tools/make_dist.sh out/dist")
    refused(rooms.tree / "tools/packages.py", rooms.made, reason="was built from other sources than these")
    run(rooms.tree / "tools/take_dist.sh", ROOT / "out/dist")
    # Nobody has signed these files yet.
    (rooms.tree / "dist/SIGNERS").unlink(missing_ok=True)
    commit_all(rooms.tree)
    return "packages are made of out/dist"


def commit_all(tree: pathlib.Path) -> None:
    """Makes a repository of a folder, with one commit."""
    variables: Variables = {name: None for name in run("git", "rev-parse", "--local-env-vars").split()}
    variables |= {"GIT_CONFIG_NOSYSTEM": "1", "GIT_CONFIG_GLOBAL": "/dev/null"}
    person = ["-c", "user.name=test", "-c", "user.email=test@test"]
    run("git", "init", "-q", ".", folder=tree, variables=variables)
    run("git", "add", "--all", "--force", folder=tree, variables=variables)
    run("git", *person, "commit", "-q", "-m", "all", folder=tree, variables=variables)


def agree_on_licence_and_version(rooms: Rooms) -> str:
    """Descriptions and README.md name the same ones. Another licence in one of them is found."""
    told = run("tests/same_packages.py")
    other = rooms.top / "other"
    for name in [*DESCRIPTIONS, "README.md", *(path.name for path in ROOT.glob("LICENSE-*"))]:
        (other / name).parent.mkdir(parents=True, exist_ok=True)
        shutil.copy(ROOT / name, other / name)
    run("tests/same_packages.py", other)
    description = other / "bindings/web/package.json"
    description.write_text(re.sub('"license": "[^"]*"', '"license": "Zlib"', description.read_text(encoding="utf-8")))
    refused("tests/same_packages.py", other, reason="package.json says the license .*Zlib")
    return told


def make_twice(rooms: Rooms) -> str:
    again, tool = rooms.top / "again", rooms.tree / "tools/packages.py"
    run(tool, rooms.made)
    run(tool, again)
    run("diff", "-r", rooms.made, again)
    shutil.rmtree(again)
    run("sha256sum", "--quiet", "-c", "SHA256SUMS", folder=rooms.made)
    lines = (rooms.made / "SHA256SUMS").read_text(encoding="utf-8").splitlines()
    return f"{len(lines)} files, twice the same bytes"


def refuse_damage(rooms: Rooms) -> str:
    """Whatever has changed in dist/ is found before anything is made, even if its checksum is right; and so are newer
    sources, and a dist/ without a history."""
    damaged = rooms.top / "damaged"
    shutil.copytree(rooms.tree, damaged)
    program, more, source = (
        damaged / name for name in ["dist/x86_64-linux/bcs", "dist/web/more.mjs", "crates/bcs/src/main.rt"]
    )
    command: list[Word] = [damaged / "tools/packages.py", damaged / "made"]
    whole = program.read_bytes()
    program.write_bytes(whole + b"x")
    refused(*command, reason="doesn't have exactly the files that SHA256SUMS lists")
    fix_checksum(program)
    refused(*command, reason="has changes that aren't committed")
    run("git", "checkout", "-q", "dist", folder=damaged)
    more.touch()
    refused(*command, reason="doesn't have exactly the files that SHA256SUMS lists")
    more.unlink()
    (damaged / "dist/README.md").write_text("other\n", encoding="utf-8")
    refused(*command, reason="has changes that aren't committed")
    run("git", "checkout", "-q", "dist", folder=damaged)
    (damaged / "dist").rename(damaged / "elsewhere")
    (damaged / "dist").symlink_to("elsewhere")
    refused(*command, reason="dist/ isn't a folder")
    (damaged / "dist").unlink()
    (damaged / "elsewhere").rename(damaged / "dist")
    (damaged / ".git").rename(damaged / "history")
    refused(*command, reason="neither signed nor can it be compared with a commit")
    source.write_bytes(source.read_bytes() + b"\n")
    refused(*command, reason="was built from other sources than these")
    if (damaged / "made").exists():
        raise Failed("packages were made of damaged files")
    shutil.rmtree(damaged)
    return "dist/ with a changed byte, another checksum, an additional file, newer sources or no history is rejected"


def fix_checksum(file: pathlib.Path) -> None:
    """Writes its checksum to SHA256SUMS."""
    dist = file.parent.parent
    name, checksum = file.relative_to(dist).as_posix(), hashlib.sha256(file.read_bytes()).hexdigest()
    sums = dist / "SHA256SUMS"
    text = sums.read_text(encoding="ascii")
    sums.write_text(re.sub(rf"(?m)^\w+(?=  {name}$)", checksum, text), encoding="ascii")


def check_bill(rooms: Rooms) -> str:
    return run(sys.executable, "tests/packages_bill.py", rooms.package("*.spdx.json"), SPDX_LICENCES)


def check_debian_packages(rooms: Rooms) -> str:
    packages = sorted(rooms.made.glob("*.deb"))
    run("lintian", "--allow-root", "--fail-on", "error", *packages)
    return f"no error in {len(packages)}"


def check_wheels(rooms: Rooms) -> str:
    """Colours in the output are removed."""
    return re.sub(r"\x1b\[[0-9;]*m", "", run("twine", "check", "--strict", *sorted(rooms.made.glob("*.whl"))))


def check_manual(rooms: Rooms) -> str:
    unpacked = rooms.top / "program"
    run("dpkg-deb", "-x", rooms.package("bcs_*_amd64.deb"), unpacked)
    page = str(unpacked / "usr/share/man/man1/bcs.1.gz")
    shown = ran("man", "--warnings", "-E", "UTF-8", "-l", "-Tutf8", page, variables={"MANROFFSEQ": ""})
    if shown.returncode != 0 or shown.stderr:
        raise Failed(f"status {shown.returncode}: {shown.stderr}")
    return f"{len(shown.stdout.splitlines())} lines, no warning"


def compile_c_files(rooms: Rooms) -> str:
    """Whether compilers warn of the program and the library in C. tests/portable_c.py runs them."""
    run("tar", "-C", rooms.top, "-xJf", rooms.package("bcs-*-c.tar.xz"))
    (folder,) = rooms.top.glob("bcs-*-c")
    compilers = [name for name in ["gcc", "clang"] if shutil.which(name)]
    for compiler in compilers:
        options = ["-std=gnu11", "-Wall", "-Wextra", "-Werror", "-Iinclude", "-fsyntax-only"]
        tests = sorted((folder / "tests").glob("*.c"))
        run(compiler, *options, "bcs.c", "bcs_library.c", *tests, "example.c", folder=folder)
    return f"no warning from {' and '.join(compilers)}"
