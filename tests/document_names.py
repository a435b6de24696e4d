#!/usr/bin/env python3
"""tests/document_names.py [FILE..]: whether what the documents name in `crates/` is there. Without a word: README.md,
CONTRIBUTING.md, CHANGELOG.md, docs/ and the READMEs of the crates.

It looks at each path `crates/..`, and between backticks at each crate's name, at the file of definitions of a name
`CRATE/File`, at "the files `a` and `b` of `CRATE`", and at `src/..`, `specs/..`, `proofs/..` and `must-fail/..` of the
crate that was named last in the same line, or that the document is of. In the README of a crate it also looks at
`module::item`, also in "`module::item`, `other`", and at tables of the files of `src/`, `specs/` or `proofs/`. And the
lists of tests/README.md have exactly the files of tests/.
"""

import pathlib
import re
import sys

ROOT = pathlib.Path(__file__).resolve().parent.parent
CRATES = ROOT / "crates"
TESTS = ROOT / "tests"
# What begins as a crate's name does, and is none; where the calls of C are spoken of all names of its header.
OTHERS = {"bcs_app", "bcs_program", "bcs_command", "bcs_proved"}
HEADERS = ("bindings/c/include/bcs.h", "bindings/c/proved.h")
CALLS = {name for file in HEADERS for name in re.findall(r"\bbcs_\w+", (ROOT / file).read_text(encoding="utf-8"))}

PATH = re.compile(r"(?<!\w/)\bcrates/[\w./*-]*[\w*]")
NAME = re.compile(r"\b(?:(?:bcs|test|bench)_\w+|example_library\b)")
CODE = re.compile(r"`([^`]+)`")
PART = re.compile(r"(?:src|specs|proofs|must-fail)/[\w./*+-]*[\w*]")
# An item of a module of the README's crate, unless it is one of the kit's libraries.
ITEM = re.compile(r"(?!serde_json)([a-z]\w*)::(\w+)")
# The header of a table of files, and the first cell of a row.
FILES = re.compile(r"\| Files? of `((?:src|specs|proofs)/)` \|")
CELL = re.compile(r"\| ([^|]+) \|")
# "the files `a` and `b` of `NAME`" are files of that crate's code.
OF_CRATE = re.compile(r"\bfiles? ((?:`\w+`(?:, | and )?)+) of \[?`(\w+)`")


def is_there(path: pathlib.Path) -> bool:
    """A file or a folder, of which a name may leave out `.antt` or `.rt`; `*` and `..` stand for anything."""
    name = str(path.relative_to(ROOT)).replace("..", "*")
    return any(any(ROOT.glob(name + end)) for end in ("", ".antt", ".rt"))


def missing_of(code: str, own: str, crate: str) -> tuple[list[str], str]:
    """What words between backticks name that isn't there, and the crate that was named last."""
    missing = []
    for found in NAME.finditer(code):
        name, behind = found[0], code[found.end() :]
        if name in OTHERS or (own in ("bcs_c", "bcs_calls") and name in CALLS):
            continue
        crate = name
        file = re.match(r"/([A-Z]\w*)$", behind)
        if not (CRATES / name).is_dir() or (file and not is_there(CRATES / name / "specs" / file[1])):
            missing.append(code)
    owners = [name for name in (crate, own) if name]
    if owners and PART.fullmatch(code) and not any(is_there(CRATES / name / code) for name in owners):
        missing.append(f"{code} of {owners[0]}")
    return missing, crate


def has_item(crate: str, module: str, item: str) -> bool:
    """Whether a module of the crate, or one that it re-exports from another crate, has the item."""
    code = "".join(file.read_text(encoding="utf-8") for file in CRATES.glob(f"{crate}/src/*.rt"))
    crates = [crate, *re.findall(rf"pub use (\w+)::[^;]*\b{module}\b", code)]
    files = [file for name in crates for file in CRATES.glob(f"{name}/src/**/{module}.rt")]
    definition = re.compile(rf"\b(?:fn|struct|enum|trait|const|type|pub use [^;]*)\s*\b{item}\b")
    return any(definition.search(file.read_text(encoding="utf-8")) for file in files)


def missing_of_crate(line: str, own: str, folder: str) -> list[str]:
    """What a line of a crate's README names that isn't there: items, and files in a table of those of a folder."""
    items = [(match[1], match[2]) for match in map(ITEM.fullmatch, CODE.findall(line)) if match]
    cell, missing, module = CELL.match(line), [], ""
    names = CODE.findall(cell[1]) if cell and not FILES.match(line) else []
    # "`module::a`, `b`" in a first column are items of one module.
    for name in names:
        match = ITEM.fullmatch(name)
        module = match[1] if match else module if re.fullmatch(r"[a-z]\w*", name) else ""
        items += [(module, name)] if module and not match else []
    missing += [f"{module}::{item}" for module, item in items if not has_item(own, module, item)]
    return missing + [name for name in names if folder and not is_there(CRATES / own / folder / name)]


def missing_in(file: pathlib.Path) -> list[str]:
    # These pages speak of the calls of C, as the README of their crate does.
    own = (
        "bcs_c"
        if file.name in ("CHANGELOG.md", "EMBEDDING.md", "LIMITS.md")
        else file.parent.name
        if file.parent.parent == CRATES
        else ""
    )
    missing, folder = [], ""
    for number, line in enumerate(file.read_text(encoding="utf-8").splitlines(), 1):
        table = FILES.match(line)
        folder = table[1] if table else folder if line.startswith("|") else ""
        crate, found = "", [path for path in PATH.findall(line) if not is_there(ROOT / path)]
        for files, name in OF_CRATE.findall(line):
            found += [
                f"{file} of {name}"
                for file in re.findall(r"`(\w+)`", files)
                if not (CRATES / name / f"src/{file}.rt").exists()
            ]
        for code in CODE.findall(line):
            more, crate = missing_of(code, own, crate)
            found += more
        if file.parent.parent == CRATES:
            found += missing_of_crate(line, own, folder)
        missing += [f"{number}: {name}" for name in dict.fromkeys(found)]
    return missing


def unlisted() -> list[str]:
    """What is in tests/ and not in the tables of its README, or there and not in tests/."""
    page = (TESTS / "README.md").read_text(encoding="utf-8")
    lines = [line.partition(": ")[0] for line in page.splitlines() if line.startswith("- `")]
    names = {name for line in lines for name in CODE.findall(line)}
    made = re.compile(r"(.*/)?(\.|__pycache__).*|README\.md")
    found = [path for pattern in ("*", "rows/*") for path in TESTS.glob(pattern) if path != TESTS / "rows"]
    files = {f"{path.relative_to(TESTS)}{'/' if path.is_dir() else ''}" for path in found}
    return sorted({name for name in files if not made.fullmatch(name)} ^ names)


files = [pathlib.Path(word).resolve() for word in sys.argv[1:]]
documents = ["README.md", "CONTRIBUTING.md", "CHANGELOG.md", "docs/*.md", "crates/*/README.md"]
files = files or [file for document in documents for file in sorted(ROOT.glob(document))]
wrong = [f"{file.relative_to(ROOT)}:{name}" for file in files for name in missing_in(file)]
wrong += [f"tests/README.md or tests/: {name}" for name in unlisted()]
for place in wrong:
    print(f"names: FAILED: {place} isn't there")
print(
    f"names: what {len(files)} documents name in crates/ is there" if not wrong else f"names: {len(wrong)} aren't there"
)
sys.exit(1 if wrong else 0)
