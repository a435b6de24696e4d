#!/usr/bin/env python3
"""bindings/web/tests/rows_of_program.py FOLDER: asks all rows of tests/rows/bcs.rows of the program in the folder.

A process of Node takes several times as long to start as the program in it. So a few processes run the program for many
rows (starts.mjs). Every 20th row, and those whose arguments aren't UTF-8, start `node bcs.mjs` as users do.
"""

from __future__ import annotations

import json
import os
import pathlib
import queue
import shlex
import subprocess
import sys
import tempfile

TESTS = pathlib.Path(__file__).resolve().parent
ROWS = TESTS.parents[2] / "tests/rows"
sys.path.insert(0, str(ROWS))
import program  # noqa: E402 (the folder has to be known first)
from program_rows import Question  # noqa: E402

PROCESSES = 4
# Out of this many rows, one starts Node.
EACH = 20
# Fewer rows mean that the table wasn't read.
LEAST, LEAST_STARTS, LEAST_SHARED = 1100, 60, 1000


class Node:
    """A process of Node that runs the program in the folder, in a working directory."""

    def __init__(self, folder: pathlib.Path, place: pathlib.Path) -> None:
        asked, requests = os.pipe()
        answers, told = os.pipe()
        command = ["node", str(TESTS / "starts.mjs"), str(folder), str(asked), str(told)]
        environment = os.environ | {"LC_ALL": "C"}
        self.process = subprocess.Popen(command, cwd=place, env=environment, pass_fds=(asked, told))
        os.close(asked)
        os.close(told)
        self.requests, self.answers = os.fdopen(requests, "w"), os.fdopen(answers)

    def run(self, words: list[str], streams: list[str]) -> int:
        self.requests.write(json.dumps([words, streams]) + "\n")
        self.requests.flush()
        told = self.answers.readline()
        if not told.endswith("\n"):
            sys.exit(f"rows_of_program: FAILED: Node ended at {words}")
        return int(told)

    def end(self) -> int:
        self.requests.close()
        return self.process.wait()


class Asker(program.Asker):
    """The program in Node, and how many rows each way of starting it was used for."""

    folder = pathlib.Path()
    made: list[Asker] = []

    def __init__(self, launcher: str, room: pathlib.Path) -> None:
        super().__init__(launcher, room)
        self.nodes = [Node(self.folder, self.files) for _ in range(PROCESSES)]
        self.free: queue.Queue[Node] = queue.Queue()
        for node in self.nodes:
            self.free.put(node)
        self.counts: queue.Queue[str] = queue.Queue()
        self.made.append(self)

    def ask(self, question: Question, folder: pathlib.Path) -> program.Answer:
        """A row has a folder that is named by its line."""
        words = [word.decode(errors="replace") for word in question.words]
        if int(folder.name) % EACH == 0 or any("\ufffd" in word for word in words):
            self.counts.put("start")
            return super().ask(question, folder)
        self.counts.put("shared")
        for name, data in question.files.items():
            pathlib.Path(name).write_bytes(data)
        given, output, error = folder / "input", folder / "output", folder / "error"
        if question.stdin is not None:
            given.write_bytes(question.stdin)
        node = self.free.get()
        streams = [program.UNREADABLE if question.stdin is None else str(given), str(output), str(error)]
        status = node.run(words, streams)
        self.free.put(node)
        return program.Answer(status, output.read_bytes(), error.read_bytes())

    def end(self) -> None:
        statuses = [node.end() for node in self.nodes]
        told = [self.counts.get() for _ in range(self.counts.qsize())]
        starts, shared = told.count("start"), told.count("shared")
        if any(statuses):
            sys.exit(f"rows_of_program: FAILED: Node ends with the statuses {statuses}")
        if len(told) < LEAST or starts < LEAST_STARTS or shared < LEAST_SHARED:
            sys.exit(f"rows_of_program: FAILED: only {len(told)} rows, {starts} of them with a start of Node")
        print(f"rows_of_program: {len(told)} rows, none wrong, {starts} of them with a start of Node")


def main() -> None:
    if len(sys.argv) != 2:
        sys.exit(__doc__)
    Asker.folder = pathlib.Path(sys.argv[1]).resolve(strict=True)
    with tempfile.TemporaryDirectory() as room:
        launcher = pathlib.Path(room) / "bcs"
        launcher.write_text(f'#!/bin/sh\nexec node {shlex.quote(str(Asker.folder / "bcs.mjs"))} "$@"\n')
        launcher.chmod(0o755)
        setattr(program, "Asker", Asker)
        sys.argv[1:] = ["--jobs", str(PROCESSES), str(launcher)]
        status = program.main()
    if status:
        sys.exit("rows_of_program: FAILED: a row is wrong")
    for asker in Asker.made:
        asker.end()


if __name__ == "__main__":
    main()
