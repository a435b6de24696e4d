"""What ./install puts where, so that a package has the same."""

from __future__ import annotations

import os
import pathlib
import subprocess
import tempfile

import archives
import facts


def files(prefix: str, *words: str, machine: facts.Machine = facts.MACHINES[0]) -> archives.Files:
    """The files with their paths on the machine where they are installed, without the first slash. The program is the
    one in dist/, even if another one was proved on this machine. It is run to make the manual and the completions, so
    the files for another kind of machine replace the native ones afterwards."""
    with tempfile.TemporaryDirectory() as room:
        surroundings = {**os.environ, "DESTDIR": room, "BCS": str(facts.NATIVE / "bcs")}
        command = [str(facts.ROOT / "install"), "--prefix", prefix, *words]
        subprocess.run(command, env=surroundings, stdout=subprocess.DEVNULL, check=True)
        found = archives.tree(pathlib.Path(room))
    return found if machine.folder == facts.NATIVE else for_machine(found, machine)


def for_machine(found: archives.Files, machine: facts.Machine) -> archives.Files:
    """The same files with those of another folder of dist/ in place of the native ones."""
    names = {path.read_bytes(): path.name for path in facts.NATIVE.iterdir()}
    replaced = {}
    for path, file in found.items():
        if file.data in names:
            replaced[path] = archives.taken(machine.folder / names[file.data])
        elif path.endswith("/bcs.pc"):
            prefix = f"/{path.removesuffix('/lib/pkgconfig/bcs.pc')}"
            command = [str(facts.ROOT / "tools/packaging/pkg_config.sh"), prefix, machine.processor]
            told = subprocess.run(command, stdout=subprocess.PIPE, text=True, check=True)
            replaced[path] = archives.text(told.stdout)
        else:
            replaced[path] = file
    return replaced
