"""What a registry holds open in the library, and when it is closed."""

import gc
import os
import pathlib
import subprocess
import sys
import threading
import unittest
import unittest.mock
from typing import Any, Callable

from bcs_proved import BcsError, FormatError, Library, Registry, RegistryError, ValueTypeError
from bcs_proved.library import Answer, Call, Question

HERE = pathlib.Path(__file__).resolve().parent
NUMBER = '"U8"'
# Calls of each method that uses a handle: some are answered, and some are refused, by the format or by the input.
CALLS: list[Callable[[Registry], object]] = [
    lambda registry: registry.check("None"),
    lambda registry: registry.check(NUMBER),
    lambda registry: registry.encode(NUMBER, 7),
    lambda registry: registry.encode(NUMBER, 256),
    lambda registry: registry.encode("None", 7),
    lambda registry: registry.encode_json(NUMBER, "x"),
    lambda registry: registry.decode(NUMBER, b"\7"),
    lambda registry: registry.decode(NUMBER, b""),
    lambda registry: registry.decode("None", b""),
    lambda registry: registry.decode_prefix(NUMBER, b"\7\7"),
    lambda registry: registry.decode_prefix({"SEQ": "BOOL"}, b"\1\2"),
    lambda registry: registry.decode_json({"SEQ": "U64"}, b"\1" + bytes(8)),
    lambda registry: registry.decode_prefix_json(NUMBER, b"\7\7"),
    lambda registry: registry.normalise(NUMBER, 7),
    lambda registry: registry.normalise_json(NUMBER, "-1"),
    lambda registry: registry.equal(NUMBER, 7, 8),
    lambda registry: registry.equal(NUMBER, 7, 256),
    lambda registry: registry.equal_json(NUMBER, "7", "x"),
    lambda registry: registry.scan(NUMBER, b"\7"),
    lambda registry: registry.scan("None", b"\7"),
    lambda registry: registry.part({"SEQ": "U8"}, b"\1\7", "0"),
    lambda registry: registry.part({"SEQ": "U8"}, b"\1", "0"),
    lambda registry: registry.part(NUMBER, b"\7", "x"),
    lambda registry: registry.part_by_name({"SEQ": "U8"}, b"\1\7", "[0]"),
    lambda registry: registry.part_by_pointer({"SEQ": "BOOL"}, b"\1\2", "/0"),
    lambda registry: registry.explain(NUMBER, b""),
    lambda registry: registry.explain_text("None", b""),
    lambda registry: registry.schema(NUMBER),
    lambda registry: registry.schema("None"),
    lambda registry: registry.example({"SEQ": "U64"}, full=True),
    lambda registry: registry.example('"F32"'),
    lambda registry: registry.example_json(NUMBER, variant="x"),
    lambda registry: registry.show(),
    lambda registry: registry.show("None"),
]


def told(call: Callable[[Registry], object], registry: Registry) -> object:
    """What a call returns or raises."""
    try:
        return call(registry)
    except BcsError as fault:
        return type(fault), str(fault)


class CountingLibrary(Library):
    """Counts the handles that are open, and waits in a call as long as a test wants."""

    def __init__(self) -> None:
        super().__init__(os.environ["BCS_LIBRARY"])
        self.opened = self.closed = 0
        open_one, close_one = self.functions["bcs_open"], self.functions["bcs_close"]

        def counted_open(*words: Any) -> Any:
            answer = open_one(*words)
            self.opened += answer.status == 0
            return answer

        def counted_close(*words: Any) -> None:
            self.closed += 1
            close_one(*words)

        self.functions["bcs_open"], self.functions["bcs_close"] = counted_open, counted_close

    @property
    def counts(self) -> tuple[int, int]:
        return self.opened, self.closed


class Outputs(unittest.TestCase):
    def test_lengths_have_64_bits(self) -> None:
        """The length of an output isn't cut to 32 bits. The buffer of 4 GiB is never touched or copied."""
        asked: list[int] = []

        class Copied:
            def __init__(self, _: object) -> None:
                ...

            def __getitem__(self, part: slice) -> "Copied":
                asked.append(part.stop)
                return self

            def tobytes(self) -> bytes:
                return b""

        library = CountingLibrary()
        library.functions["bcs_ask"] = lambda *_: Answer(status=0, length=2**32 + 3)
        with unittest.mock.patch("bcs_proved.library.memoryview", Copied, create=True):
            Question(library).ask(Call.FAULT_NAME, number=1, room=40)
        self.assertEqual(asked, [2**32 + 3])


class Handles(unittest.TestCase):
    def setUp(self) -> None:
        self.library = CountingLibrary()

    def test_calls_one_after_another_share_one(self) -> None:
        registry = Registry("{}", self.library)
        for number in range(100):
            self.assertEqual(registry.encode(NUMBER, number), bytes([number]))
        with self.assertRaises(FormatError):
            registry.check('"u8"')
        self.assertEqual(registry.encode(NUMBER, 7), b"\x07")
        self.assertEqual(self.library.counts, (1, 0))

    def test_calls_at_once_share_one(self) -> None:
        registry = Registry("{}", self.library)
        all_are_there = threading.Barrier(8)
        ask = self.library.functions["bcs_ask"]

        def ask_together(*words: Any) -> Any:
            all_are_there.wait(60)
            return ask(*words)

        self.library.functions["bcs_ask"] = ask_together
        for _ in range(2):
            threads = [threading.Thread(target=registry.scan, args=(NUMBER, b"\x07")) for _ in range(8)]
            for thread in threads:
                thread.start()
            for thread in threads:
                thread.join()
            self.assertEqual(self.library.counts, (1, 0))
        registry.close()
        self.assertEqual(self.library.counts, (1, 1))

    def test_a_list_that_another_thread_changes(self) -> None:
        """A string that comes in place of a number is rejected, and is never JSON."""
        registry, items, is_over = Registry("{}", self.library), [5] * 200, threading.Event()
        changed: list[Any] = items

        def change() -> None:
            while not is_over.is_set():
                for item in '7","8', 5:
                    changed[-1] = item

        interval, thread = sys.getswitchinterval(), threading.Thread(target=change)
        sys.setswitchinterval(1e-6)
        thread.start()
        try:
            for _ in range(2000):
                try:
                    self.assertEqual(registry.encode({"SEQ": "U16"}, items), b"\xc8\x01" + b"\5\0" * 200)
                except ValueTypeError as fault:
                    self.assertEqual(fault.at, "/199")
        finally:
            is_over.set()
            thread.join()
            sys.setswitchinterval(interval)

    def test_a_refused_registry_holds_none(self) -> None:
        with self.assertRaises(RegistryError):
            Registry("{", self.library)
        self.assertEqual(self.library.counts, (0, 0))

    def test_closing(self) -> None:
        with Registry("{}", self.library) as registry:
            self.assertEqual(registry.encode(NUMBER, 7), b"\x07")
            self.assertEqual(self.library.counts, (1, 0))
        self.assertEqual(self.library.counts, (1, 1))
        registry.close()
        with self.assertRaisesRegex(ValueError, "closed"):
            registry.encode(NUMBER, 7)
        self.assertEqual(registry.differences(Registry({"A": "UNITSTRUCT"})), ["A: container added"])
        self.assertEqual(self.library.counts, (1, 1))

    def test_closing_while_a_call_runs(self) -> None:
        registry = Registry("{}", self.library)
        ask = self.library.functions["bcs_ask"]

        def close_and_ask(*words: Any) -> Any:
            registry.close()
            self.assertEqual(self.library.counts, (1, 0))
            return ask(*words)

        self.library.functions["bcs_ask"] = close_and_ask
        self.assertEqual(registry.scan(NUMBER, b"\x07"), 1)
        self.assertEqual(self.library.counts, (1, 1))

    def test_closing_while_each_method_runs(self) -> None:
        """Whenever it is closed, even between a refusal and the request for its message, the call ends with its own
        answer."""
        for number, call in enumerate(CALLS):
            library = CountingLibrary()
            registry = Registry("{}", library)
            ask = library.functions["bcs_ask"]

            def closing(*words: Any, registry: Registry = registry, ask: Any = ask) -> Any:
                registry.close()
                answer = ask(*words)
                registry.close()
                return answer

            library.functions["bcs_ask"] = closing
            with self.subTest(call=number):
                self.assertEqual(told(call, registry), told(call, Registry("{}")))
                self.assertIsNone(registry._handle)
                self.assertEqual(library.counts, (1, 1))
                with self.assertRaisesRegex(ValueError, "closed"):
                    call(registry)

    def test_closing_in_another_thread(self) -> None:
        """Freed memory is overwritten, so a call that reads it fails or ends the process."""
        environment = {**os.environ, "MALLOC_PERTURB_": "165"}
        words = [sys.executable, str(HERE / "closing_threads.py")]
        ran = subprocess.run(words, env=environment, capture_output=True, text=True, check=False)
        self.assertEqual((ran.returncode, ran.stderr, ran.stdout), (0, "", "400 threads, and no other end\n"))

    def test_closing_while_other_threads_call(self) -> None:
        """The last of eight calls frees the handle, and later ones raise."""
        registry = Registry("{}", self.library)
        all_are_there, may_go = threading.Barrier(9), threading.Event()
        ask = self.library.functions["bcs_ask"]
        scanned: list[int] = []

        def ask_late(*words: Any) -> Any:
            all_are_there.wait(60)
            may_go.wait(60)
            return ask(*words)

        self.library.functions["bcs_ask"] = ask_late
        threads = [threading.Thread(target=lambda: scanned.append(registry.scan(NUMBER, b"\x07"))) for _ in range(8)]
        for thread in threads:
            thread.start()
        all_are_there.wait(60)
        registry.close()
        with self.assertRaisesRegex(ValueError, "closed"):
            registry.encode(NUMBER, 7)
        self.assertEqual(self.library.counts, (1, 0))
        may_go.set()
        for thread in threads:
            thread.join()
        self.assertEqual((scanned, self.library.counts), ([1] * 8, (1, 1)))

    def test_a_registry_that_goes_is_closed(self) -> None:
        registry = Registry("{}", self.library)
        self.assertEqual(registry.scan(NUMBER, b"\x07"), 1)
        del registry
        gc.collect()
        self.assertEqual(self.library.counts, (1, 1))


if __name__ == "__main__":
    unittest.main()
