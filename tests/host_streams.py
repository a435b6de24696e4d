#!/usr/bin/env python3
"""Tests what a host of the program does with closed descriptors and interrupted calls: tests/host_streams.py COMMAND..

COMMAND is the program, or what runs it: an emulator with the program, Node with the module. Each combination of closed
descriptors 0, 1 and 2 leaves the file of -o as it has to be, and a closed stream can't be read or written. In Node, a
closed stream is /dev/null.
"""

from __future__ import annotations

import contextlib
import itertools
import os
import pathlib
import signal
import socket
import struct
import subprocess
import sys
import tempfile
import time
from typing import Any, NamedTuple

import debian
from harness import fail, passed

STREAMS = (0, 1, 2)
MODULE = """[{"abi":{"address":"0x1","name":"m","structs":[{"name":"S","is_native":false,"abilities":[],
    "generic_type_params":[{"constraints":[]}],"fields":[{"name":"x","type":"T0"}]}]}}]"""
# Each prints a note, and FILE gets this.
JOBS = {
    "explain": (["{}", '"U8"', "digits", "--inside", '.x="U8"'], f"{'     0  07':<74}{'U8 7':<32}.\n"),
    "from-move": ([MODULE, "0x01::m::S<u8>"], '{"0x1::m::S<u8>":{"STRUCT":[{"x":"U8"}]}}\n'),
}
READ_FAULT = "fault: read\nin the standard input\n"
WRITE_FAULT = "fault: write\nin the standard output\n"
# What a socket doesn't take at once, whose other end isn't read.
MEGABYTE = 1 << 20
PAUSE = 0.3
STOPS = 3


class Ended(NamedTuple):
    status: int
    output: str
    errors: str


class Program:
    def __init__(self, command: list[str], room: pathlib.Path) -> None:
        self.command, self.room = command, room
        self.is_node = pathlib.Path(command[0]).name == "node"
        self.count = 0

    def start(self, *words: str, closed: tuple[int, ...] = (), **streams: socket.socket) -> subprocess.Popen[str]:
        """Starts the program, whose streams are pipes, with some of them closed."""
        pipes = {"stdin": subprocess.PIPE, "stdout": subprocess.PIPE, "stderr": subprocess.PIPE}

        def close() -> None:
            for stream in closed:
                os.close(stream)

        used: dict[str, Any] = pipes | streams
        return subprocess.Popen([*self.command, *words], cwd=self.room, text=True, preexec_fn=close, **used)

    def run(self, *words: str, closed: tuple[int, ...] = (), given: str = "") -> Ended:
        program = self.start(*words, closed=closed)
        # (nobody reads what is written to a closed one)
        signal.signal(signal.SIGPIPE, signal.SIG_IGN)
        output, errors = program.communicate(given)
        return Ended(program.returncode, output, errors)

    def check(self, what: str, found: object, expected: object) -> None:
        if found != expected:
            fail(f"{what}: {str(found)[:500]} instead of {str(expected)[:500]}")
        self.count += 1


def answers_are_apart(program: Program, closed: tuple[int, ...]) -> None:
    """FILE has the answer and nothing else, whether it is new or replaced."""
    for command, (words, answer) in JOBS.items():
        file = program.room / command
        for _ in range(2):
            ended = program.run(command, *words, "-o", command, closed=closed)
            what = f"{command} with {closed} closed"
            program.check(what, (ended.status, ended.output), (0, ""))
            program.check(f"the note of {what}", ended.errors == "", 2 in closed)
            program.check(f"the file of {what}", file.read_text(), answer)
        file.unlink()
    program.check(f"the folder, with {closed} closed", sorted(os.listdir(program.room)), ["digits"])


def closed_streams_fail(program: Program, closed: tuple[int, ...]) -> None:
    """A closed input can't be read, and a closed output can't be written; neither can be opened again by a name."""
    errors = "" if 2 in closed else READ_FAULT
    read = program.run("encode", "{}", '"U8"', closed=closed, given="7")
    if 0 in closed:
        program.check(f"reading with {closed} closed", read, Ended(4, "", errors))
        again = program.run("encode", "{}", '"U8"', "/dev/stdin", closed=closed)
        program.check(f"reading /dev/stdin with {closed} closed", again.status, 4)
    written = program.run("check", "{}", closed=closed)
    if 1 in closed:
        program.check(f"writing with {closed} closed", written, Ended(4, "", "" if 2 in closed else WRITE_FAULT))
        again = program.run("explain", "{}", '"U8"', "digits", "-o", "/dev/stdout", closed=closed)
        program.check(f"writing /dev/stdout with {closed} closed", again.status, 4)
    if 2 in closed and 1 not in closed:
        program.check(f"a note with {closed} closed", program.run("check", '{"S":7}', closed=closed).status, 2)


def unfilled_streams(program: Program) -> None:
    """If nothing can take the place of a closed stream, the program ends before it opens any file."""
    fault = "fault: open\nin the file /\n"
    for stream, errors in ("<&-", fault), (">&-", fault), ("2>&-", ""):
        tool = ["strace", "-qq", "-o", "/dev/null", "-P", "/", "-e", "inject=open,openat:error=ENFILE"]
        job = [*program.command, "explain", "{}", '"U8"', "digits", "-o", "file"]
        words = [*tool, "sh", "-c", f'exec "$@" {stream}', "sh", *job]
        ended = subprocess.run(words, cwd=program.room, stdin=subprocess.DEVNULL, capture_output=True, text=True)
        found = Ended(ended.returncode, ended.stdout, ended.stderr)
        program.check(f"{stream} that can't be filled", found, Ended(4, "", errors))
        program.check("the folder", os.listdir(program.room), ["digits"])


def stop_often(program: subprocess.Popen[str]) -> None:
    """Stopping and continuing a process ends a call on a socket with EINTR, if the socket has a time limit."""
    for _ in range(STOPS):
        time.sleep(PAUSE)
        program.send_signal(signal.SIGSTOP)
        time.sleep(PAUSE)
        program.send_signal(signal.SIGCONT)


def limited(option: int) -> tuple[socket.socket, socket.socket]:
    """Two ends of a stream. Calls on the second wait for at most a minute."""
    ours, theirs = socket.socketpair()
    theirs.setsockopt(socket.SOL_SOCKET, option, struct.pack("ll", 60, 0))
    return ours, theirs


def interrupted_reading(program: Program) -> None:
    ours, theirs = limited(socket.SO_RCVTIMEO)
    started = program.start("encode", "{}", '"U8"', stdin=theirs)
    theirs.close()
    time.sleep(1)
    stop_often(started)
    with contextlib.suppress(BrokenPipeError):
        ours.sendall(b"7")
    ours.close()
    output, errors = started.communicate()
    program.check("an interrupted read", Ended(started.returncode, output, errors), Ended(0, "07\n", ""))


def interrupted_writing(program: Program) -> None:
    ours, theirs = limited(socket.SO_SNDTIMEO)
    theirs.setsockopt(socket.SOL_SOCKET, socket.SO_SNDBUF, 4096)
    started = program.start("normalise", "{}", '"STR"', stdout=theirs)
    theirs.close()
    assert started.stdin
    started.stdin.write(f'"{"a" * MEGABYTE}"')
    started.stdin.close()
    time.sleep(1)
    stop_often(started)
    with ours.makefile("rb") as taken:
        output = taken.read()
    assert started.stderr
    program.check("an interrupted write", (started.wait(), started.stderr.read()), (0, ""))
    program.check("its output", output == b'"' + b"a" * MEGABYTE + b'"\n', True)


def main() -> None:
    if len(sys.argv) < 2:
        sys.exit(__doc__)
    with tempfile.TemporaryDirectory() as name:
        room = pathlib.Path(name)
        (room / "digits").write_text("07")
        words = [str(pathlib.Path(word).resolve()) if pathlib.Path(word).exists() else word for word in sys.argv[1:]]
        program = Program(words, room)
        for closed in itertools.chain.from_iterable(itertools.combinations(STREAMS, count) for count in range(4)):
            answers_are_apart(program, closed)
            if not program.is_node:
                closed_streams_fail(program, closed)
        if len(program.command) == 1:
            debian.install({"strace": "strace"})
            unfilled_streams(program)
        interrupted_reading(program)
        interrupted_writing(program)
        passed(f"{program.count} answers with closed descriptors and interrupted calls")


if __name__ == "__main__":
    main()
