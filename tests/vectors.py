#!/usr/bin/env python3
"""tests/vectors.py [FOLDER]: whether the lines of `python3 -m bcs_proved.vectors` find bugs. FOLDER has libbcs.so and
libbcs.a; by default it is the one in dist/ for this machine.

Bugs are planted in a small codec and its reader of JSON, and registries are changed in one place: a line has to show
each of them. The programs of docs/VECTORS.md pass with the lines, and fail with wrong ones; that in Rust needs cargo.
Prints a line for each part, with its processor seconds.
"""

from __future__ import annotations

import functools
import os
import pathlib
import shutil
import sys
import tempfile
import threading
import time
from collections.abc import Callable

import debian
import vectors_bugs as bugs
import vectors_consumers as consumers
from harness import ROOT, Failed, clean_up_on_sigterm, processor_seconds, run

# Processor seconds for the planted bugs and the changed registries, and for the lines of a registry of 408 containers.
MOST_SECONDS, MOST_SECONDS_OF_400 = 250, 15
LEAST_CHANGES = 700
NEEDED = {
    "node": "nodejs",
    "tsc": "node-typescript",
    "go": "golang-go",
    "/usr/lib/python3/dist-packages/hypothesis": "python3-hypothesis",
    "/usr/share/cargo/registry": "librust-serde-json-dev",
}
REGISTRIES = {
    "every_format": ROOT / "examples/every_format.json",
    "aptos": ROOT / "examples/aptos_registry.json",
    "sui": ROOT / "examples/sui_registry.json",
}


# It makes the lines, and then prints the modules of the package that it read.
MODULES = """\
import contextlib, io, runpy, sys
with contextlib.redirect_stdout(io.StringIO()), contextlib.suppress(SystemExit):
    runpy.run_module("bcs_proved.vectors", run_name="__main__")
print(*sorted(module.__file__ for name, module in sys.modules.items() if name.startswith("bcs_proved")), sep="\\n")
"""


def compare_sources() -> str:
    """The Python files among the sources of dist/ are those that make the lines."""
    package = ROOT / "bindings/python/bcs_proved"
    read = {package / "vectors/__main__.py"}
    for registry in REGISTRIES.values():
        read |= {pathlib.Path(name) for name in run(sys.executable, "-c", MODULES, registry).splitlines()}
    listed = [ROOT / name for name in run("tools/dist_sources.sh", "--list").splitlines()]
    sources = {path for path in listed if path.is_relative_to(package) and path.suffix == ".py"}
    if sources != read:
        names = sorted(path.name for path in sources ^ read)
        raise Failed(f"tools/dist_sources.sh lists other Python files than those that make the lines: {names}")
    return f"{len(sources)} Python files are sources of dist/, and make the lines"


class Test:
    """The parts, over lines that are made once."""

    def __init__(self, libraries: pathlib.Path, top: pathlib.Path) -> None:
        self.libraries, self.top = libraries, top
        self.files = {name: top / f"{name}.jsonl" for name in REGISTRIES}
        self.texts = top / "texts.jsonl"

    def make(self, registry: pathlib.Path, file: pathlib.Path, *options: str) -> None:
        printed = run(sys.executable, "-m", "bcs_proved.vectors", registry, *options)
        if len(printed.splitlines()) < 100 or not printed.isascii():
            raise Failed(f"{registry}: {len(printed.splitlines())} lines, or some aren't ASCII")
        file.write_text(printed, encoding="ascii")

    def make_all(self) -> str:
        """Twice the same lines."""
        for name, registry in REGISTRIES.items():
            self.make(registry, self.files[name])
            self.make(registry, self.texts)
            if self.files[name].read_bytes() != self.texts.read_bytes():
                raise Failed(f"{registry}: two runs print different lines")
        self.make(REGISTRIES["every_format"], self.texts, "--texts")
        return ", ".join(f"{name} {len(file.read_bytes().splitlines())} lines" for name, file in self.files.items())

    def plant(self) -> str:
        folder, registry = self.top / "bugs", REGISTRIES["every_format"]
        lines, texts = bugs.Lines(registry, self.files["every_format"]), bugs.Lines(registry, self.texts)
        shown = [
            bugs.require_all_shown(codec, of, folder / codec.bugs)
            for codec, of in ((bugs.CODEC, lines), (bugs.READER, texts))
        ]
        return ", ".join(shown)

    def change_registries(self) -> str:
        # (it loads the module, so the library has to be known first)
        import vectors_registries

        found = [vectors_registries.require_changes_shown(REGISTRIES[name], self.files[name]) for name in REGISTRIES]
        shown, same = (sum(counts) for counts in zip(*found))
        if shown < LEAST_CHANGES:
            raise Failed(f"only {shown} registries were changed")
        return f"{shown} changed registries are shown, and {same} have the same bytes and JSON"

    def shorten_keys(self) -> str:
        import vectors_keys

        return vectors_keys.require_all_shown()

    def make_for_400(self) -> str:
        before = processor_seconds()
        self.make(ROOT / "examples/many_containers.json", self.top / "400.jsonl")
        spent = processor_seconds() - before
        if spent > MOST_SECONDS_OF_400:
            raise Failed(f"the lines take {spent:.1f} processor seconds, and may take {MOST_SECONDS_OF_400}")
        return f"{len((self.top / '400.jsonl').read_bytes().splitlines())} lines"

    def consume(self, language: str) -> str:
        (consumer,) = [one for one in consumers.all_of(self.libraries) if one.language == language]
        return consumers.require_right(consumer, self.top / "consumers", self.files["every_format"])


def part(name: str, test: Callable[[], str]) -> float:
    """Runs a part, and returns how many processor seconds it took."""
    before = processor_seconds() + time.process_time()
    try:
        printed = test()
    except Failed as fault:
        sys.exit(f"{fault}\nvectors: FAILED: {name}")
    spent = processor_seconds() + time.process_time() - before
    print(f"vectors: {name}: {spent:.1f} processor seconds: {printed}", flush=True)
    return spent


def consume(test: Test) -> None:
    if not shutil.which("cargo"):
        sys.exit("vectors: FAILED: command not found: cargo")
    for language in ("python", "hypothesis", "ts", "go", "rust"):
        part(f"the consumer in {language}", functools.partial(test.consume, language))


def run_all(test: Test) -> None:
    part("the sources", compare_sources)
    part("the lines", test.make_all)
    part("a registry of 408 containers", test.make_for_400)
    spent = part("planted bugs", test.plant) + part("changed registries", test.change_registries)
    spent += part("parts of keys", test.shorten_keys)
    if spent > MOST_SECONDS:
        sys.exit(f"vectors: FAILED: bugs and registries take {spent:.0f} processor seconds, more than {MOST_SECONDS}")
    part("the example of docs/VECTORS.md", consumers.require_example)
    consume(test)


def main() -> None:
    libraries = pathlib.Path(sys.argv[1] if len(sys.argv) > 1 else f"dist/{os.uname().machine}-linux").resolve()
    library = libraries / "libbcs.so"
    if not library.exists() or len(sys.argv) > 2:
        sys.exit(__doc__)
    os.chdir(ROOT)
    os.environ |= {
        "BCS_LIBRARY": str(library),
        "PYTHONPATH": str(ROOT / "bindings/python"),
        "PYTHONDONTWRITEBYTECODE": "1",
    }
    sys.dont_write_bytecode = True
    clean_up_on_sigterm()
    debian.install(NEEDED)
    with tempfile.TemporaryDirectory() as folder:
        test = Test(libraries, pathlib.Path(folder))
        # deep values need more calls and more stack than a program has
        sys.setrecursionlimit(100_000)
        threading.stack_size(512 << 20)
        statuses: list[object] = []

        def run_in_thread() -> None:
            try:
                run_all(test)
            except SystemExit as end:
                statuses.append(end.code)

        thread = threading.Thread(target=run_in_thread)
        thread.start()
        thread.join()
    if statuses:
        sys.exit(str(statuses[0]))
    print("vectors: passed")


if __name__ == "__main__":
    main()
