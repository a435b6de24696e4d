"""Archives whose bytes depend on what is in them alone: names in order, one time for all, no owners."""

from __future__ import annotations

import gzip
import io
import lzma
import os
import pathlib
import subprocess
import tempfile
import time
import zipfile
from typing import NamedTuple

from facts import EPOCH

TAR = ["tar", "--create", "--format=ustar", "--sort=name", "--numeric-owner", "--owner=0", "--group=0"]
TAR += [f"--mtime=@{EPOCH}", "--mode=u=rwX,go=rX"]


class File(NamedTuple):
    """A file of a package. A link has where it leads in `link`, and no data."""

    data: bytes
    is_program: bool = False
    link: str = ""


Files = dict[str, File]


def text(content: str) -> File:
    return File(content.encode())


def taken(path: pathlib.Path) -> File:
    """A file of the repository, which is a program there or not."""
    if path.is_symlink():
        return File(b"", link=os.readlink(path))
    return File(path.read_bytes(), is_program=os.access(path, os.X_OK))


def tree(folder: pathlib.Path, front: str = "") -> Files:
    """All files of a folder, under names that begin with `front`."""
    paths = [path for path in folder.rglob("*") if path.is_symlink() or path.is_file()]
    return {front + path.relative_to(folder).as_posix(): taken(path) for path in paths}


def gzipped(data: bytes) -> bytes:
    return gzip.compress(data, 9, mtime=0)


def xz(data: bytes) -> bytes:
    return lzma.compress(data, preset=9)


def write(files: Files, folder: pathlib.Path) -> None:
    """Writes the files below a folder, with their rights in the package."""
    for name, file in files.items():
        path = folder / name
        path.parent.mkdir(parents=True, exist_ok=True)
        if file.link:
            path.symlink_to(file.link)
        else:
            path.write_bytes(file.data)
            path.chmod(0o755 if file.is_program else 0o644)


def tar(files: Files, folder: str) -> bytes:
    """The files in a folder of this name."""
    with tempfile.TemporaryDirectory() as top:
        write(files, pathlib.Path(top, folder))
        return subprocess.run([*TAR, "--directory", top, folder], stdout=subprocess.PIPE, check=True).stdout


def zip(files: Files) -> bytes:
    out = io.BytesIO()
    with zipfile.ZipFile(out, "w", zipfile.ZIP_DEFLATED) as archive:
        for name in sorted(files):
            info = zipfile.ZipInfo(name, time.gmtime(EPOCH)[:6])
            info.compress_type, info.create_system = zipfile.ZIP_DEFLATED, 3
            info.external_attr = (0o100755 if files[name].is_program else 0o100644) << 16
            archive.writestr(info, files[name].data)
    return out.getvalue()
