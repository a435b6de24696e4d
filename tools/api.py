#!/usr/bin/env python3
"""Prints the public items beyond the specified API, by crate, or compares tools/further_api.txt with them:
tools/api.py [--check].

tools/specified_api.txt lists what was specified; each of these items has to be there. An unspecified type stands for
its members, and the modules of laws are left out, since a law is a theorem and no call.
"""

from __future__ import annotations

import functools
import pathlib
import re
import sys
from collections.abc import Iterator
from typing import NamedTuple

ROOT = pathlib.Path(__file__).resolve().parent.parent
CRATES = ROOT / "crates"
SPECIFIED = ROOT / "tools/specified_api.txt"
FURTHER = ROOT / "tools/further_api.txt"
HEAD = "# The public items beyond tools/specified_api.txt: what tools/api.py prints."
# The specified crates, that of streams, and the one that re-exports the others.
PUBLIC = [
    "bcs_num",
    "bcs_registry",
    "bcs_value",
    "bcs_encode",
    "bcs_decode",
    "bcs_json",
    "bcs_io",
    "bcs_tool",
    "bcs_codec",
]
LAWS = {"laws", "part_laws"}


class Item(NamedTuple):
    """What a crate exports by a name: where it is defined, and its members."""

    name: str
    file: pathlib.Path
    members: tuple[str, ...]


@functools.cache
def text_of(file: pathlib.Path) -> str:
    """A file without comments and without the content of strings, in which a brace may stand alone."""
    text = re.sub(r"^\s*//.*$", "", file.read_text(encoding="utf-8"), flags=re.M)
    return re.sub(r'"(?:[^"\\\n]|\\.)*"', '""', text)


def block(text: str, start: int) -> str:
    """What is between the next brace and the one that closes it."""
    depth = 0
    for at in range(text.index("{", start), len(text)):
        depth += {"{": 1, "}": -1}.get(text[at], 0)
        if not depth:
            return text[text.index("{", start) + 1 : at]
    sys.exit(f"api: FAILED: a brace is never closed: {text[start : start + 80]}")


def outer_lines(body: str) -> list[str]:
    """The lines of a block that aren't within a block or a list of it."""
    lines, depth = [], 0
    for line in body.split("\n"):
        if not depth and line.strip():
            lines.append(line.strip())
        depth += sum(line.count(opening) for opening in "{([") - sum(line.count(closing) for closing in "})]")
    return lines


def members_of(kind: str, name: str, file: pathlib.Path) -> Iterator[str]:
    """Variants, public fields, and the methods of a trait or those of a type that its own file and others state."""
    text = text_of(file)
    start = re.search(rf"^pub {kind} {name}\b[^;{{]*([;{{(])", text, flags=re.M)
    if start and start[1] == "{":
        for line in outer_lines(block(text, start.start())):
            if found := re.match({"enum": r"([A-Z]\w*)", "struct": r"pub (\w+):", "trait": r"fn (\w+)"}[kind], line):
                yield found[1]
    for other in sorted(file.parents[len(file.relative_to(CRATES).parts) - 3].rglob("*.rt")):
        for impl in re.finditer(rf"^impl(?:<[^>]*>)? {name}\b(?! for)[^{{]*(?=\{{)", text_of(other), flags=re.M):
            for line in outer_lines(block(text_of(other), impl.start())):
                if found := re.match(r"pub (?:const )?fn (\w+)|pub const (\w+)", line):
                    yield found[1] or found[2]


def item_in(file: pathlib.Path, name: str) -> Item | None:
    """The public item that a file defines."""
    found = re.search(rf"^pub (?:const )?(fn|struct|enum|trait|const|type) {name}\b", text_of(file), flags=re.M)
    if not found:
        return None
    is_type = found[1] in ("struct", "enum", "trait")
    return Item(name, file, tuple(members_of(found[1], name, file)) if is_type else ())


def used(text: str) -> Iterator[tuple[str, str, str]]:
    """Of each name that a text re-exports the path before it, the name there, and the new one."""
    for path, names in re.findall(r"^pub use ([\w:]+?)(?:::\{([^}]*)\})?;", text, flags=re.M):
        first, _, last = path.rpartition("::")
        for name in re.findall(r"\w+(?: as \w+)?", names) if names else [last]:
            old, _, new = name.partition(" as ")
            yield path if names else first, old, new or old


def exports(crate: str) -> dict[str, Item]:
    """The items of a crate by the names that its users write."""
    source = CRATES / crate / "src"
    text, found = text_of(source / "lib.rt"), dict[str, Item]()
    for path, old, new in used(text):
        if new in LAWS:
            continue
        owner = path.split("::")[0] if (CRATES / path.split("::")[0]).is_dir() else crate
        if (module := CRATES / owner / f"src/{old}.rt").exists() and old.islower() and not item_of(owner, old):
            found.update(of_module(module, f"{new}::"))
        elif item := item_of(owner, old):
            found[new] = item
        else:
            sys.exit(f"api: FAILED: {crate} exports {old} of {path}, which isn't found")
    for module_name in re.findall(r"^pub mod (\w+);", text, flags=re.M):
        if module_name not in LAWS:
            found.update(of_module(source / f"{module_name}.rt", f"{module_name}::"))
    return found


def item_of(crate: str, name: str) -> Item | None:
    """The item of a crate that may be defined in another one."""
    for file in sorted((CRATES / crate / "src").rglob("*.rt")):
        if item := item_in(file, name):
            return item
    for path, old, new in used(text_of(CRATES / crate / "src/lib.rt")):
        owner = path.split("::")[0]
        if new == name and (CRATES / owner).is_dir():
            return item_of(owner, old)
    return None


def of_module(file: pathlib.Path, before: str) -> dict[str, Item]:
    """The public items of a module, with those that it re-exports from its parts."""
    text, found = text_of(file), dict[str, Item]()
    for name in re.findall(r"^pub (?:const )?(?:fn|struct|enum|trait|const|type) (\w+)", text, flags=re.M):
        found[before + name] = item_in(file, name) or sys.exit(f"api: FAILED: {file} lacks {name}")
    for path, old, new in used(text):
        item = item_in(file.with_suffix("") / f"{path.split('::')[0]}.rt", old)
        found[before + new] = item or sys.exit(f"api: FAILED: {file} exports {old}, which isn't found")
    return found


def specified() -> dict[str, dict[str, list[str]]]:
    """Of each crate its items with their members."""
    crates: dict[str, dict[str, list[str]]] = {}
    for line in SPECIFIED.read_text(encoding="utf-8").splitlines():
        if line.startswith("bcs_"):
            items = crates.setdefault(line, {})
        elif line and not line.startswith("#"):
            name, colon, members = line.partition(":") if "::" not in line else line.rpartition(":")
            items.update({name: members.split()} if colon else dict.fromkeys(line.split(), []))
    return crates


def unspecified() -> dict[str, list[str]]:
    """Of each crate the items, and members of specified types, that it exports first and that nothing specified."""
    wanted, seen, more = specified(), set[tuple[str, pathlib.Path]](), dict[str, list[str]]()
    known = {name: members for items in wanted.values() for name, members in items.items()}
    for crate in PUBLIC:
        found, own = exports(crate), more.setdefault(crate, [])
        missing = [name for name in wanted.get(crate, {}) if name not in found]
        for name, item in found.items():
            is_new = (item.name, item.file) not in seen
            seen.add((item.name, item.file))
            if name not in known or item.name != name.rpartition("::")[2]:
                own += [name] if is_new else []
                continue
            missing += [f"{name}::{member}" for member in known[name] if member not in item.members]
            own += [f"{name}::{member}" for member in item.members if is_new and member not in known[name]]
        if missing or not found:
            sys.exit(f"api: FAILED: {crate} lacks what was specified: {', '.join(missing) or 'all'}")
    return more


def listing() -> str:
    lines = [HEAD]
    for crate, names in unspecified().items():
        if names:
            lines += ["", crate, *names]
    return "\n".join(lines) + "\n"


def main() -> None:
    wanted = listing()
    if sys.argv[1:] != ["--check"]:
        print(wanted, end="")
    elif wanted != FURTHER.read_text(encoding="utf-8"):
        sys.exit(f"api: FAILED: tools/further_api.txt isn't what tools/api.py prints:\n{wanted}")
    else:
        print("api: tools/further_api.txt lists the public items that weren't specified")


if __name__ == "__main__":
    main()
