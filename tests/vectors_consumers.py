"""The part of tests/vectors.py that runs the consumers in examples/vectors: those in Python over codec.py, and the
others over the libraries of this repository. They have to pass with the right lines, and to fail if one line is wrong.
"""

from __future__ import annotations

import json
import pathlib
import re

from typing import NamedTuple

from harness import ROOT, Failed, Variables, Word, ran, require_same, run

PAGE = ROOT / "docs/VECTORS.md"
PROGRAMS = ROOT / "examples/vectors"
CODECS = ROOT / "tests/codecs"
# What stands for the types of a user.
SDK = CODECS / "sdk"
REGISTRY = ROOT / "examples/every_format.json"

RUST_MANIFEST = """\
[package]
name = "my_sdk"
version = "0.1.0"
edition = "2024"

[dependencies]
bcs-proved = {{ path = "{crate}" }}

[dev-dependencies]
serde_json = "1"
"""

GO_MODULE = """\
module codec

go 1.19

require fodrascu.example/bcsproved v0.0.0

replace fodrascu.example/bcsproved => {module}
"""


class Consumer(NamedTuple):
    """A program in examples/vectors: the files beside it, its name, where its lines are, what compiles and runs it."""

    language: str
    files: dict[str, str | pathlib.Path]
    program: str
    lines: str
    command: list[Word]
    variables: Variables = {}
    compiler: list[Word] = []


def all_of(libraries: pathlib.Path) -> list[Consumer]:
    tsc = ["tsc", "--strict", "--target", "es2022", "--module", "nodenext", "--moduleResolution", "nodenext"]
    manifest = RUST_MANIFEST.format(crate=ROOT / "bindings/rust")
    return [
        Consumer(
            "python",
            {"my_sdk.py": SDK / "my_sdk.py", "codec.py": CODECS / "codec.py", "registry.json": REGISTRY},
            "vectors_test.py",
            "vectors.jsonl",
            ["python3", "-B", "-m", "unittest", "vectors_test"],
        ),
        Consumer(
            "hypothesis",
            {"my_sdk.py": SDK / "my_sdk.py", "codec.py": CODECS / "codec.py", "registry.json": REGISTRY},
            "test_values.py",
            "",
            ["/usr/bin/python3", "-B", "-c", "import test_values as t; t.test_bytes(); t.test_verdicts()"],
        ),
        Consumer(
            "ts",
            {
                "types.mjs": SDK / "types.mjs",
                "types.d.mts": SDK / "types.d.mts",
                "node.d.ts": SDK / "node.d.ts",
                "registry.json": REGISTRY,
            },
            "vectors.test.mts",
            "vectors.jsonl",
            ["node", "vectors.test.mjs"],
            {"BCS_WEB": str(libraries.parent / "web")},
            compiler=[*tsc, "node.d.ts", "vectors.test.mts"],
        ),
        Consumer(
            "go",
            {
                "go.mod": GO_MODULE.format(module=ROOT / "bindings/go"),
                "types.go": SDK / "types.go",
                "registry.json": REGISTRY,
            },
            "vectors_test.go",
            "testdata/vectors.jsonl",
            ["go", "test", "-count=1", "-tags", "bcs_c", "."],
            {
                "GOFLAGS": "-mod=mod",
                "GOPROXY": "off",
                "CGO_CFLAGS": f"-I{ROOT}/bindings/c/include",
                "CGO_LDFLAGS": f"{libraries}/libbcs.a",
            },
        ),
        Consumer(
            "rust",
            {
                "Cargo.toml": manifest,
                ".cargo/config.toml": ROOT / "bindings/rust/.cargo/config.toml",
                "src/lib.rs": SDK / "lib.rs",
                "tests/registry.json": REGISTRY,
            },
            "tests/vectors.rs",
            "tests/vectors.jsonl",
            ["cargo", "test", "--quiet", "--offline"],
            {"BCS_LIB": str(libraries), "RUST_MIN_STACK": str(16 << 20)},
        ),
    ]


def wrong(lines: list[str]) -> list[tuple[str, list[str]]]:
    """Lines of which one is wrong: accepted and refused bytes changed, and no lines at all."""
    accepted = next(index for index, line in enumerate(lines) if '"json"' in line and '"bytes":"0' in line)
    refused = next(index for index, line in enumerate(lines) if '"refused"' in line)
    other = json.loads(lines[refused])
    del other["refused"], other["place"]
    changed = json.loads(lines[accepted])
    changed["refused"], changed["place"] = "EndOfInput", 0
    return [
        ("a refused line without its refusal", [*lines[:refused], json.dumps(other), *lines[refused + 1 :]]),
        ("an accepted line with a refusal", [*lines[:accepted], json.dumps(changed), *lines[accepted + 1 :]]),
        ("no lines", []),
    ]


def failure(consumer: Consumer, folder: pathlib.Path, lines: list[str]) -> str:
    """What the consumer prints if it fails."""
    if consumer.lines:
        (folder / consumer.lines).write_text("".join(line + "\n" for line in lines), encoding="ascii")
    ended = ran(*consumer.command, folder=folder, variables=consumer.variables)
    return f"{ended.stdout}{ended.stderr}status {ended.returncode}" if ended.returncode != 0 else ""


def write(folder: pathlib.Path, files: dict[str, str | pathlib.Path]) -> None:
    for name, content in files.items():
        (folder / name).parent.mkdir(parents=True, exist_ok=True)
        text = content.read_text(encoding="utf-8") if isinstance(content, pathlib.Path) else content
        (folder / name).write_text(text, encoding="utf-8")


def require_right(consumer: Consumer, top: pathlib.Path, vectors: pathlib.Path) -> str:
    folder = top / consumer.language
    program = (PROGRAMS / pathlib.PurePath(consumer.program).name).read_text(encoding="utf-8")
    write(folder, {**consumer.files, consumer.program: program, consumer.lines or "no_lines": ""})
    if consumer.compiler:
        run(*consumer.compiler, folder=folder)
    lines = vectors.read_text(encoding="ascii").splitlines()
    if found := failure(consumer, folder, lines):
        raise Failed(f"the consumer in {consumer.language} fails:\n{found[-3000:]}")
    for what, others in wrong(lines) if consumer.lines else []:
        if not failure(consumer, folder, others):
            raise Failed(f"the consumer in {consumer.language} passes with {what}")
    if not consumer.lines:
        require_bug_found(consumer, folder)
    return f"{len(program.splitlines())} lines"


def require_example() -> str:
    """The page's example prints what the page says."""
    found = re.search(r"^```\n(\$ export .*?)^```$", PAGE.read_text(encoding="utf-8"), flags=re.M | re.S)
    lines = found[1].splitlines() if found else []
    commands = [line[2:] for line in lines if line.startswith("$ ")]
    if not commands:
        raise Failed("docs/VECTORS.md has no example")
    printed = run("sh", "-c", "\n".join(commands))
    require_same("the example", printed, "".join(f"{line}\n" for line in lines if not line.startswith("$ ")))
    return f"{len(commands)} commands"


def require_bug_found(consumer: Consumer, folder: pathlib.Path) -> None:
    """A property fails for a codec that accepts each trailing byte."""
    codec = folder / "codec.py"
    codec.write_text(codec.read_text(encoding="utf-8").replace("if decoder.at != len(data):", "if False:"))
    if not failure(consumer, folder, []):
        raise Failed(f"the consumer in {consumer.language} passes over a codec with a bug")
