#!/usr/bin/env python3
"""Tests examples/dask_decode.py: tests/dask_decode.py PROGRAM LIBRARY, which are `bcs` and libbcs.so.

A scheduler and two workers decode a folder of files, first undisturbed, and then with a worker killed in between. Both
times each file must be what one process of the program prints. The two hosts are network namespaces on this machine; if
none can be made, they are one.
"""

from __future__ import annotations

import contextlib
import json
import os
import pathlib
import re
import shutil
import signal
import subprocess
import tempfile
import time
from collections.abc import Iterator
from typing import NamedTuple

from harness import ROOT, Failed, arguments, clean_up_on_sigterm, end_with

# Debian's, which has Dask.
PYTHON = "/usr/bin/python3"
REGISTRY = str(ROOT / "examples/aptos_registry.json")
FORMAT = "RawTransaction"
FILES = 40
LINES = 1500
# How long a process may take until it is ready.
SECONDS = 180


class Host(NamedTuple):
    """The words before a command that run it on the host, and the host's address."""

    words: list[str]
    address: str


@contextlib.contextmanager
def hosts() -> Iterator[tuple[str, Host, Host]]:
    """Two hosts with a wire between them, and what to call them."""
    names = [f"bcs-{os.getpid()}-{number}" for number in (1, 2)]
    addresses = ["10.99.0.1", "10.99.0.2"]
    commands = [f"netns add {name}" for name in names]
    commands.append(f"link add wire netns {names[0]} type veth peer name wire netns {names[1]}")
    for name, address in zip(names, addresses):
        commands += [f"-n {name} addr add {address}/24 dev wire", f"-n {name} link set wire up"]
        commands.append(f"-n {name} link set lo up")
    try:
        if all(ip(command) for command in commands):
            one, two = (Host(["ip", "netns", "exec", name], address) for name, address in zip(names, addresses))
            yield "two network namespaces", one, two
        else:
            here = Host([], "127.0.0.1")
            yield "one host, since no network namespace can be made here", here, here
    finally:
        for name in names:
            ip(f"netns delete {name}")


def ip(command: str) -> bool:
    return (
        shutil.which("ip") is not None and not subprocess.run(["ip", *command.split()], capture_output=True).returncode
    )


class Process:
    """A command that runs in the background, with its output in a log."""

    def __init__(self, name: str, room: pathlib.Path, *words: str) -> None:
        self.name, self.log = name, room / f"{name}.log"
        with self.log.open("wb") as log:
            self.process = subprocess.Popen(words, stdin=subprocess.DEVNULL, stdout=log, stderr=subprocess.STDOUT)

    def printed(self) -> str:
        return self.log.read_text(encoding="utf-8", errors="replace")

    def await_line(self, text: str) -> None:
        end = time.monotonic() + SECONDS
        while text not in self.printed():
            if time.monotonic() > end or self.process.poll() is not None:
                raise Failed(f"{self.name} doesn't print {text!r}, but:\n{self.printed()}")
            time.sleep(0.1)

    def require_decoded(self) -> str:
        """What it printed. Status 2 is that of a job with refusals."""
        if self.process.wait() not in (0, 2):
            raise Failed(f"{self.name}: status {self.process.returncode}:\n{self.printed()}")
        return self.printed().splitlines()[-1]

    def kill(self) -> None:
        self.process.send_signal(signal.SIGKILL)
        self.process.wait()


class Cluster:
    """A scheduler and its workers."""

    def __init__(self, room: pathlib.Path) -> None:
        self.room = room
        self.started: list[Process] = []

    def start(self, name: str, host: Host, *words: str) -> Process:
        process = Process(name, self.room, *host.words, *words)
        self.started.append(process)
        return process

    def start_scheduler(self, host: Host) -> Process:
        file = self.room / "scheduler.json"
        words = ["--host", host.address, "--port", "0", "--no-dashboard", "--scheduler-file", str(file)]
        scheduler = self.start("scheduler", host, "dask-scheduler", *words)
        scheduler.await_line("Scheduler at")
        self.address: str = json.loads(file.read_text(encoding="utf-8"))["address"]
        return scheduler

    def start_worker(self, name: str, host: Host) -> Process:
        words = ["--no-nanny", "--nthreads", "1", "--memory-limit", "0", "--no-dashboard", "--death-timeout", "180"]
        folder = ["--local-directory", str(self.room / name)]
        worker = self.start(name, host, "dask-worker", self.address, "--host", host.address, *words, *folder)
        worker.await_line("Registered to")
        return worker

    def start_decoding(self, host: Host, out: pathlib.Path) -> Process:
        words = [str(ROOT / "examples/dask_decode.py"), self.address, REGISTRY, FORMAT, str(self.room / "given")]
        return self.start(out.name, host, PYTHON, *words, str(out))

    def end(self) -> None:
        for process in self.started:
            process.kill()


def make_inputs(folder: pathlib.Path) -> None:
    """Transfers, each with its own sequence number, and three damaged lines in a thousand."""
    transfer = bytes.fromhex((ROOT / "examples/aptos_transfer.hex").read_text(encoding="utf-8"))
    folder.mkdir()
    for file in range(FILES):
        with (folder / f"part{file:02}.hex").open("w", encoding="utf-8") as out:
            for number in range(file * LINES, (file + 1) * LINES):
                digits = (transfer[:32] + number.to_bytes(8, "little") + transfer[40:]).hex()
                out.write({7: digits[:-2], 507: "zz", 607: digits + "00"}.get(number % 1000, digits) + "\n")


def outputs_of_program(program: str, folder: pathlib.Path) -> dict[str, bytes]:
    """What one process prints for each file."""
    outputs = {}
    for source in sorted(folder.glob("*.hex")):
        words = [program, "decode", "--quiet", "--lines", REGISTRY, FORMAT, str(source)]
        ran = subprocess.run(words, stdout=subprocess.PIPE)
        if ran.returncode not in (0, 2):
            raise Failed(f"the program: status {ran.returncode} at {source.name}")
        outputs[f"{source.stem}.json"] = ran.stdout
    if len(outputs) != FILES:
        raise Failed(f"{len(outputs)} inputs, and not {FILES}")
    return outputs


def compare(out: pathlib.Path, expected: dict[str, bytes]) -> None:
    for name, output in expected.items():
        if (out / name).read_bytes() != output:
            raise Failed(f"{out.name}: {name} isn't what the program prints")


def count(out: pathlib.Path) -> int:
    return len(list(out.glob("*.json")))


def kill_while_decoding(client: Process, worker: Process, out: pathlib.Path) -> int:
    """Kills the worker when two files are there, and returns how many are there then."""
    while count(out) < 2:
        if client.process.poll() is not None:
            raise Failed(f"decoding ended before a worker was killed:\n{client.printed()}")
        time.sleep(0.02)
    worker.kill()
    there = count(out)
    if there >= FILES:
        raise Failed("everything was decoded before the worker was killed")
    return there


def test(program: str, room: pathlib.Path, cluster: Cluster) -> None:
    make_inputs(room / "given")
    expected = outputs_of_program(program, room / "given")
    with hosts() as (kind, one, two):
        try:
            scheduler = cluster.start_scheduler(one)
            cluster.start_worker("first", one)
            second = cluster.start_worker("second", two)
            told = cluster.start_decoding(one, room / "whole").require_decoded()
            compare(room / "whole", expected)
            print(f"dask: two workers on {kind}: {told}, the same bytes as one process", flush=True)
            client = cluster.start_decoding(one, room / "broken")
            there = kill_while_decoding(client, second, room / "broken")
            told = client.require_decoded()
            compare(room / "broken", expected)
            if not re.search("remove worker|lost|connection", scheduler.printed(), flags=re.IGNORECASE):
                raise Failed(f"the scheduler doesn't notice that a worker is gone:\n{scheduler.printed()}")
            print(f"dask: a worker killed with {there} of {FILES} files there: {told}, nothing is lost")
        finally:
            cluster.end()


def main() -> None:
    args = arguments(__doc__, "program", "library")
    program, library = (str(pathlib.Path(name).resolve()) for name in (args.program, args.library))
    clean_up_on_sigterm()
    with tempfile.TemporaryDirectory() as folder:
        room = pathlib.Path(folder)
        module = str(ROOT / "bindings/python")
        os.environ |= {"BCS_LIBRARY": library, "PYTHONPATH": module, "PYTHONDONTWRITEBYTECODE": "1"}
        os.environ["DASK_CONFIG"] = str(room / "config")
        test(program, room, Cluster(room))


if __name__ == "__main__":
    end_with(main)
