#!/usr/bin/env python3
"""Tests the gate: it runs all steps, reports each way in which one can fail, and counts what each one took."""

from __future__ import annotations

import contextlib
import io
import json
import os
import pathlib
import signal
import subprocess
import sys
import tempfile
import time
import unittest
import unittest.mock
from collections.abc import Callable

import budgets
import rings
import gate as the_gate
from gate_steps import Gate, Running, Step
from harness import Failed
from harness import run as harness_run

PASSES = Step("passes", ["echo", "first\nits last line"])
FAILS = Step("fails", ["sh", "-c", "echo why; exit 3"])
KILLED = Step("killed", ["sh", "-c", "kill -9 $$"])
MISSING = Step("missing", ["./no-such-command"])
# Uses a processor, in a process below its own.
BUSY = Step("busy", ["sh", "-c", '"$0" -c "sum(range(10 ** 7))"; true', sys.executable])


def new_gate(**seconds: float) -> Gate:
    """One whose steps took these seconds."""
    file = pathlib.Path(tempfile.mkdtemp(dir=os.environ["TOP"]), "seconds.json")
    file.write_text(json.dumps(seconds), encoding="ascii")
    return Gate(file)


def run(*steps: Step, lanes: int = 2) -> tuple[list[str], list[str]]:
    """The steps that failed, and the lines that were printed."""
    gate, printed = new_gate(), io.StringIO()
    with contextlib.redirect_stdout(printed):
        gate.run(steps, lanes)
        gate.print_table()
    return sorted(gate.failed()), printed.getvalue().splitlines()


class Failures(unittest.TestCase):
    def test_rows(self) -> None:
        for steps, failed in [
            ([PASSES], []),
            ([PASSES, FAILS], ["fails"]),
            ([KILLED, PASSES], ["killed"]),
            ([MISSING, PASSES], ["missing"]),
            ([FAILS, KILLED, MISSING], ["fails", "killed", "missing"]),
            ([PASSES, Step("after", ["true"], ("passes",))], []),
            ([FAILS, Step("after", ["true"], ("fails",))], ["after", "fails"]),
            (
                [FAILS, Step("after", ["true"], ("fails",)), Step("last", ["true"], ("after",))],
                ["after", "fails", "last"],
            ),
            ([Step("waits for nobody", ["true"], ("nobody",))], ["waits for nobody"]),
        ]:
            for lanes in (1, 2, 8):
                with self.subTest([step.name for step in steps], lanes=lanes):
                    self.assertEqual(run(*steps, lanes=lanes)[0], failed)

    def test_a_failure_prints_everything_and_a_success_its_last_line(self) -> None:
        _, lines = run(FAILS, PASSES)
        self.assertIn("why", lines)
        self.assertNotIn("first", lines)
        self.assertIn("gate: passes: passed: its last line", lines)
        self.assertIn("gate: fails: FAILED: status 3", lines)

    def test_the_table_has_each_step_and_its_fault(self) -> None:
        _, lines = run(FAILS, PASSES, KILLED, MISSING, Step("after", ["true"], ("fails", "passes")))
        table = [line[len("gate:     0.0     0.0  ") :] for line in lines[-6:]]
        self.assertEqual(table[0], "passes: passed")
        self.assertEqual(
            sorted(table[1:5]),
            [
                "after: FAILED: not run, since this didn't pass: fails",
                "fails: FAILED: status 3",
                "killed: FAILED: killed by signal 9",
                "missing: FAILED: it can't run: [Errno 2] No such file or directory: './no-such-command'",
            ],
        )
        self.assertEqual(table[5], "in all: 1 steps passed, 4 failed")

    def test_functions_are_steps(self) -> None:
        def raising(fault: BaseException) -> Callable[[], str]:
            return unittest.mock.Mock(side_effect=fault)

        gate = new_gate()
        with contextlib.redirect_stdout(io.StringIO()):
            gate.attempt("passes", lambda: "printed")
            gate.attempt("raises", raising(Failed("why")))
            gate.attempt("says nothing", raising(Failed()))
            gate.attempt("isn't there", raising(FileNotFoundError("rt")))
            gate.attempt("ends", raising(SystemExit("these packages can't be installed")))
            with self.assertRaises(SystemExit):
                gate.attempt("told to end", raising(SystemExit(143)))
            gate.run([Step("over it", ["true"], ("passes",)), Step("over the other", ["true"], ("raises",))], 2)
        self.assertEqual(gate.failed(), ["raises", "says nothing", "isn't there", "ends", "over the other"])
        self.assertEqual([ended.name for ended in gate.ended if not ended.fault], ["passes", "over it"])


class Costs(unittest.TestCase):
    def test_processor_seconds_are_those_of_the_step(self) -> None:
        gate = new_gate()
        with contextlib.redirect_stdout(io.StringIO()):
            gate.run([BUSY, Step("sleeps", ["sleep", "0.5"])], 2)
            gate.attempt("calls", lambda: harness_run(*BUSY.command))
        spent = {ended.name: ended.processor_seconds for ended in gate.ended}
        self.assertGreater(spent["busy"], 0.05)
        self.assertGreater(spent["calls"], 0.05)
        self.assertLess(spent["sleeps"], spent["busy"])
        for ended in gate.ended:
            self.assertGreaterEqual(ended.seconds, 0.5 if ended.name == "sleeps" else ended.processor_seconds / 2)

    def test_the_sum_is_that_of_the_steps(self) -> None:
        gate, printed = new_gate(), io.StringIO()
        steps = [PASSES._replace(name=str(number)) for number in range(2)]
        with contextlib.redirect_stdout(printed):
            gate.run(steps, 1)
            gate.ended = [ended._replace(processor_seconds=90, seconds=120) for ended in gate.ended]
            gate.print_table()
        lines = printed.getvalue().splitlines()
        self.assertEqual(lines[-3:-1], [f"gate:     1.5     2.0  {number}: passed" for number in range(2)])
        self.assertEqual(lines[-1], "gate:     3.0     0.0  in all: 2 steps passed, 0 failed")


class Order(unittest.TestCase):
    def test_two_steps_run_at_the_same_time(self) -> None:
        """Each waits for the other one."""
        both = "touch $0; for turn in $(seq 600); do [ -e $1 ] && exit; sleep 0.1; done; exit 1"
        with contextlib.chdir(os.environ["TOP"]):
            steps = [Step(names[0], ["sh", "-c", both, *names]) for names in [("one", "two"), ("two", "one")]]
            self.assertEqual(run(*steps)[0], [])

    def test_a_step_waits_for_those_before_it(self) -> None:
        write = Step("write", ["sh", "-c", "sleep 0.3; echo there >file"])
        with contextlib.chdir(os.environ["TOP"]):
            self.assertEqual(run(Step("read", ["cat", "file"], ("write",)), write, lanes=4)[0], [])

    def test_the_longest_step_starts_first(self) -> None:
        names = ["short", "fails", "longest", "unknown", "long"]
        steps = [FAILS if name == "fails" else Step(name, ["true"]) for name in names]
        before = {"short": 1, "long": 200, "longest": 300, "fails": 2}
        gate = new_gate(**before, opens=1, waits=250)
        steps += [Step("opens", ["true"]), Step("waits", ["true"], ("opens",))]
        with contextlib.redirect_stdout(io.StringIO()):
            gate.run(steps, 1)
        self.assertEqual(
            [ended.name for ended in gate.ended], ["unknown", "longest", "opens", "waits", "long", "fails", "short"]
        )
        gate.keep_seconds()
        kept = Gate(gate.file).seconds
        self.assertEqual(kept, {**{ended.name: round(ended.seconds, 1) for ended in gate.ended}, "fails": 2})


class Ending(unittest.TestCase):
    def test_what_runs_ends_with_the_gate(self) -> None:
        gate = (
            "import gate_steps as it; it.gate().run([it.Step('long', ['sh', '-c', 'echo $$ >pid; exec sleep 600'])], 1)"
        )
        gate = f"import signal, sys; signal.signal(15, lambda *_: sys.exit(143)); {gate}"
        top = os.environ["TOP"]
        environment = os.environ | {"PYTHONPATH": os.path.dirname(os.path.abspath(__file__))}
        running = subprocess.Popen([sys.executable, "-c", gate], cwd=top, env=environment)
        path = os.path.join(top, "pid")
        while not (os.path.exists(path) and os.path.getsize(path)):
            time.sleep(0.05)
        with open(path, encoding="ascii") as file:
            step = int(file.read())
        running.send_signal(signal.SIGTERM)
        self.assertEqual(running.wait(120), 143)
        with self.assertRaises(ProcessLookupError):
            for _ in range(100):
                os.kill(step, 0)
                time.sleep(0.05)

    def test_a_step_that_begins_meanwhile_ends_too(self) -> None:
        running = Running()
        running.stop()
        self.assertEqual(running.run(Step("long", ["sleep", "600"])).fault, f"killed by signal {int(signal.SIGTERM)}")


class Closing(unittest.TestCase):
    def test_rows(self) -> None:
        log = "rt: a proved\n12 passed, 0 failed\n"
        rows: list[tuple[str, list[str], str]] = [
            (log, [], "12 passed, 0 failed"),
            (log, ["lint", "go"], "12 passed, 2 failed"),
            ("10 passed, 2 failed\n", [the_gate.PROVED], "10 passed, 2 failed"),
            ("10 passed, 2 failed\n", [the_gate.PROVED, "go"], "10 passed, 3 failed"),
            (log + "killed\n", [the_gate.PROVED], "0 passed, 1 failed"),
            ("", [the_gate.PROVED, "go"], "0 passed, 1 failed"),
        ]
        for printed, failed, closing in rows:
            with self.subTest(closing):
                self.assertEqual(the_gate.closing_line(printed, failed), closing)


class Budget(unittest.TestCase):
    def test_rows(self) -> None:
        whole = "rt: ok; must-fail edits: 9 refused; every proof and must-fail edit was done in this run\n"
        share = (
            "done in this run: 3 of the 90 proofs (of crates and of their tests); the others are kept from earlier runs"
        )
        spent, not_compared = (
            "processor minutes on 4 processors",
            "and not compared with the budget of 200 from nothing",
        )
        rows: list[tuple[str, float, str]] = [
            (
                f"rt: a proved\n{whole}9 passed, 0 failed\n",
                184.4,
                f"from nothing, 184.4 {spent}: within the budget of 200",
            ),
            (whole, 200, f"from nothing, 200.0 {spent}: within the budget of 200"),
            (whole, 200.1, f"from nothing, 200.1 {spent}: above the budget of 200"),
            (f"rt: ok; handles allowed: none; {share}\n", 30, f"30.0 {spent}, {not_compared}: {share}"),
            ("rt: a proved\n0 passed, 1 failed\n", 0.04, f"0.0 {spent}, {not_compared}: rt ci hasn't passed"),
            ("", 300, f"300.0 {spent}, {not_compared}: rt ci hasn't passed"),
        ]
        for log, minutes, line in rows:
            with self.subTest(line), unittest.mock.patch.object(os, "sched_getaffinity", lambda _: {0, 1, 2, 5}):
                self.assertEqual(the_gate.budget_line(log, minutes), line)


class Whole(unittest.TestCase):
    """The gate with a stand-in for `rt` and for the steps."""

    def gate(self, rt: str, *steps: Step) -> tuple[list[str], list[str]]:
        top = pathlib.Path(tempfile.mkdtemp(dir=os.environ["TOP"]))
        (top / "rt").write_text(f"#!/bin/sh\n[ $1 = ci ] || {{ echo kit; exit; }}\n{rt}\n", encoding="ascii")
        (top / "rt").chmod(0o755)
        gate, log, printed = new_gate(), top / "log", io.StringIO()
        log.touch()
        with contextlib.ExitStack() as stack:
            stack.enter_context(contextlib.redirect_stdout(printed))
            for name, value in {
                "QUICK": [FAILS._replace(name="quick")],
                "steps": lambda _: steps,
                "install": lambda _: "",
                "drop_libraries_without_stamp": lambda: None,
                "note_what_was_proved": lambda _: None,
            }.items():
                stack.enter_context(unittest.mock.patch.object(the_gate, name, value))
            stack.enter_context(
                unittest.mock.patch.dict(os.environ, {"PATH": f"{top}:{os.environ['PATH']}", "CI": "false"})
            )
            the_gate.run_all(gate, log)
        return gate.failed(), [*printed.getvalue().splitlines(), the_gate.closing_line(log.read_text(), gate.failed())]

    def test_a_quick_failure_keeps_nothing_from_running(self) -> None:
        failed, lines = self.gate(
            "echo proved; echo 5 passed, 0 failed", Step("over", ["true"], (the_gate.PROVED,)), FAILS
        )
        self.assertEqual(failed, ["quick", "fails"])
        self.assertEqual(lines[-1], "5 passed, 2 failed")
        self.assertIn("proved", lines)

    def test_proofs_that_fail_keep_from_running_what_needs_them(self) -> None:
        for rt, closing in [
            ("echo 5 passed, 1 failed; exit 1", "5 passed, 4 failed"),
            ("kill -9 $$", "0 passed, 3 failed"),
        ]:
            failed, lines = self.gate(rt, Step("over", ["true"], (the_gate.PROVED,)), FAILS, PASSES)
            self.assertEqual(failed, ["quick", the_gate.PROVED, "fails", "over"])
            self.assertEqual(lines[-1], closing)


class Budgets(unittest.TestCase):
    """Over a repository with one line in a/, three in b/, and one of which git doesn't know."""

    def check(self, *rows: str) -> tuple[int, str]:
        top, printed = pathlib.Path(tempfile.mkdtemp(dir=os.environ["TOP"])), io.StringIO()
        for name, text in {"a/of": "a\n", "b/of": "one two\n\n\n", "b/more": "\n", "rows": "\n".join(rows)}.items():
            (top / name).parent.mkdir(exist_ok=True)
            (top / name).write_text(text, encoding="ascii")
        harness_run("git", "init", "-q", folder=top)
        harness_run("git", "add", "a/of", "b/of", folder=top)
        with contextlib.redirect_stdout(printed):
            return budgets.check(top, top / "rows"), printed.getvalue()

    def test_rows(self) -> None:
        for row, status, text in [
            ("of b: lines 3 3 b", 0, "of b: 3 lines, limit 3, goal 3\n"),
            ("of b: lines 2 3 b", 0, "of b: 3 lines, limit 3, goal 2\n"),
            ("of b: lines 2 4 b", 0, "of b: 3 lines, limit 4, goal 2; lower the limit\n"),
            ("of b: lines 1 2 b", 1, "FAILED: of b: 1 lines above its limit\n"),
            ("both: lines 0 3 a b", 1, "FAILED: both: 1 lines above its limit\n"),
            ("without a: lines 3 3 . :!a", 0, "without a: 3 lines, limit 3, goal 3\n"),
            ("files: lines 4 4 */of", 0, "files: 4 lines, limit 4, goal 4\n"),
            ("bytes: bytes 9 9 b", 1, "FAILED: bytes: 1 bytes above its limit\n"),
            ("words: words 2 2 b", 0, "words: 2 words, limit 2, goal 2\n"),
            ("nothing: lines 9 9 c", 1, "FAILED: nothing: it has no lines: c\n"),
        ]:
            with self.subTest(row):
                ended, printed = self.check("# a comment", "of a: lines 1 1 a", row)
                self.assertEqual(ended, status)
                self.assertIn(text, printed)

    def test_no_rows_fail(self) -> None:
        self.assertEqual(self.check("# a comment")[0], 1)
        for row in ["of a: lines 1 a", "of a: pages 1 1 a", "of a: lines 2 1 a", "of a: lines 1 1", ""]:
            with self.subTest(row), self.assertRaises(Failed):
                self.check("of a: lines 1 1 a", row, "of b: lines 3 3 b")


class Rings(unittest.TestCase):
    def test_each_fault(self) -> None:
        text = "## low:\na:\nb staticlib: a hex\n\n## high: low\n# What it is\nc: a b c\n"
        rows: list[tuple[str, str, list[str]]] = [
            (text, "abc", []),
            (text.replace("b staticlib: a hex", "b staticlib: c"), "abc", ["b is in the ring low and uses c of high"]),
            (text.replace("high: low", "high:"), "abc", [f"c is in the ring high and uses {it} of low" for it in "ab"]),
            (text.replace("high: low", "high: lower"), "abc", ["ring high may use lower, which is no ring"]),
            (text.replace("## low:\n", ""), "abc", ["a is in no ring", "b is in no ring"]),
            (text, "abcd", ["d: only one of crates.txt and crates/ has it"]),
            (text, "ab", ["c: only one of crates.txt and crates/ has it"]),
        ]
        for changed, folders, fault in rows:
            with self.subTest(changed, folders=folders):
                found = rings.faults(changed, set(folders))
                self.assertEqual([it for it in fault if it not in found], [])
                self.assertEqual(bool(found), bool(fault))


def main() -> None:
    with tempfile.TemporaryDirectory() as top:
        os.environ["TOP"] = top
        unittest.main()


if __name__ == "__main__":
    main()
