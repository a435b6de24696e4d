"""Runs the steps of a gate side by side, all of them, and reports how each one ended and what it took."""

from __future__ import annotations

import json
import math
import os
import pathlib
import signal
import subprocess
import sys
import tempfile
import threading
import time
from collections.abc import Callable, Sequence
from concurrent.futures import FIRST_COMPLETED, Future, ThreadPoolExecutor, wait
from typing import NamedTuple

from harness import ROOT, Failed, processor_seconds


class Step(NamedTuple):
    """A command, and the names of the steps that have to pass before it."""

    name: str
    command: Sequence[str]
    after: tuple[str, ...] = ()


class Ended(NamedTuple):
    """How a step ended, with what it printed, and what it took. Its fault is empty if it passed."""

    name: str
    fault: str = ""
    output: str = ""
    processor_seconds: float = 0
    seconds: float = 0

    def row(self) -> str:
        outcome = f"FAILED: {self.fault}" if self.fault else "passed"
        return f"gate: {self.processor_seconds / 60:7.1f} {self.seconds / 60:7.1f}  {self.name}: {outcome}"

    def report(self) -> str:
        """Its last line if it passed, and otherwise everything."""
        printed = self.output.rstrip()
        if self.fault:
            return f"{printed}\ngate: {self.name}: FAILED: {self.fault}".lstrip()
        return f"gate: {self.name}: passed: {printed.rpartition(chr(10))[2]}"


class Running:
    """The process groups of the steps that run, so that they end when the gate is told to."""

    def __init__(self) -> None:
        self.groups: set[int] = set()
        self.is_ended = False
        self.lock = threading.Lock()

    def run(self, step: Step) -> Ended:
        start = time.monotonic()
        try:
            with tempfile.TemporaryFile() as output:
                process = subprocess.Popen(
                    step.command,
                    stdin=subprocess.DEVNULL,
                    stdout=output,
                    stderr=subprocess.STDOUT,
                    start_new_session=True,
                )
                self.add(process.pid)
                _, status, usage = os.wait4(process.pid, 0)
                process.returncode = os.waitstatus_to_exitcode(status)
                with self.lock:
                    self.groups.discard(process.pid)
                output.seek(0)
                printed = output.read().decode(errors="replace")
        except OSError as fault:
            return Ended(step.name, f"it can't run: {fault}", seconds=time.monotonic() - start)
        took = usage.ru_utime + usage.ru_stime
        return Ended(step.name, fault_of(process.returncode), printed, took, time.monotonic() - start)

    def add(self, group: int) -> None:
        """A step may begin while the gate is told to end."""
        with self.lock:
            self.groups.add(group)
            if self.is_ended:
                os.killpg(group, signal.SIGTERM)

    def stop(self) -> None:
        with self.lock:
            self.is_ended = True
            for group in self.groups:
                os.killpg(group, signal.SIGTERM)


def fault_of(status: int) -> str:
    """Nothing if the status is 0. It is negative after a signal."""
    if status < 0:
        return f"killed by signal {-status}"
    return f"status {status}" if status else ""


class Gate:
    """Runs steps, and keeps how each of them ended. The file has the seconds that they took when they last passed: of
    the steps that may start, the longest does, with those that wait for it. One without seconds counts as the longest.
    """

    def __init__(self, file: pathlib.Path) -> None:
        self.ended: list[Ended] = []
        self.began, self.file = time.monotonic(), file
        self.seconds: dict[str, float] = json.loads(file.read_text(encoding="utf-8")) if file.exists() else {}

    def add(self, ended: Ended) -> None:
        self.ended.append(ended)
        print(ended.report(), flush=True)

    def failed(self) -> list[str]:
        return [ended.name for ended in self.ended if ended.fault]

    def attempt(self, name: str, call: Callable[[], str]) -> None:
        """A step that is a function. It returns what to print, and fails by an exception. Nothing runs beside it."""
        start, before, fault, printed = time.monotonic(), processor_seconds(), "", ""
        try:
            printed = call()
        except (Failed, OSError, subprocess.SubprocessError) as raised:
            fault = str(raised) or "it says nothing"
        except SystemExit as raised:
            # SIGTERM ends the gate with a number
            if not isinstance(raised.code, str):
                raise
            fault = raised.code or "it says nothing"
        self.add(Ended(name, fault, printed, processor_seconds() - before, time.monotonic() - start))

    def seconds_from(self, step: Step, steps: Sequence[Step]) -> float:
        """What the step takes, and the longest of the steps that wait for it."""
        later = [self.seconds_from(other, steps) for other in steps if step.name in other.after]
        return self.seconds.get(step.name, math.inf) + max(later, default=0)

    def run(self, steps: Sequence[Step], lanes: int) -> None:
        """Runs each step once those before it have passed. One whose turn never comes has failed."""
        running = Running()
        waiting = sorted(steps, key=lambda step: self.seconds_from(step, steps), reverse=True)
        pool = ThreadPoolExecutor(lanes)
        futures: set[Future[Ended]] = set()
        try:
            while waiting or futures:
                passed = {ended.name for ended in self.ended if not ended.fault}
                for step in [step for step in waiting if passed.issuperset(step.after)][: lanes - len(futures)]:
                    waiting.remove(step)
                    futures.add(pool.submit(running.run, step))
                if not futures:
                    break
                done, futures = wait(futures, return_when=FIRST_COMPLETED)
                for future in done:
                    self.add(future.result())
        finally:
            running.stop()
        for step in waiting:
            missing = ", ".join(name for name in step.after if name not in passed)
            self.add(Ended(step.name, f"not run, since this didn't pass: {missing}"))

    def minutes(self) -> float:
        """The processor minutes of all steps."""
        return sum(ended.processor_seconds for ended in self.ended) / 60

    def keep_seconds(self) -> None:
        taken = {ended.name: round(ended.seconds, 1) for ended in self.ended if not ended.fault}
        self.file.parent.mkdir(exist_ok=True)
        self.file.write_text(json.dumps(self.seconds | taken, indent=0), encoding="utf-8")

    def print_table(self) -> None:
        """A line for each step, in the order of what they took, and what they took together. The failures come last."""
        print("gate: processor minutes, minutes by the clock, and the step:")
        for ended in sorted(self.ended, key=lambda ended: (bool(ended.fault), -ended.processor_seconds)):
            print(ended.row())
        spent, clock = self.minutes(), (time.monotonic() - self.began) / 60
        failed = self.failed()
        count = f"{len(self.ended) - len(failed)} steps passed, {len(failed)} failed"
        print(f"gate: {spent:7.1f} {clock:7.1f}  in all: {count}", flush=True)


def gate() -> Gate:
    """One that keeps its seconds where git ignores them."""
    return Gate(ROOT / "out/gate_seconds.json")


def lanes() -> int:
    """How many steps run side by side."""
    return len(os.sched_getaffinity(0))


def python(script: str | pathlib.Path, *arguments: str) -> list[str]:
    return [sys.executable, str(script), *arguments]
