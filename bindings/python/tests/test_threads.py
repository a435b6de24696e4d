"""Calls that run at the same time, or within one another: each has its own question and output."""

import gc
import os
import signal
import sys
import threading
import unittest
from collections.abc import Iterator, Mapping
from typing import Any, Callable

from bcs_proved import BytesError, FormatError, Library, Registry, TextError, ValueTypeError

PAIR = {"P": {"STRUCT": [{"a": "STR"}, {"b": "BYTES"}, {"c": {"SEQ": "U16"}}]}}
# Outputs are shorter and longer than the room that is kept.
LENGTHS = [0, 1, 100, 127, 1500, 5000]


def length_of(count: int) -> bytes:
    return bytes([count]) if count < 128 else bytes([count & 127 | 128]) + length_of(count >> 7)


class Row:
    """A value with its bytes, which are written out here."""

    def __init__(self, number: int, count: int) -> None:
        text = chr(ord("a") + number % 26) * count
        self.value: dict[str, Any] = {"a": text, "b": text.encode(), "c": [number] * 3}
        octets = length_of(count) + text.encode()
        self.data = octets + octets + b"\3" + number.to_bytes(2, "little") * 3
        self.text = f'{{"a":"{text}","b":"{text.encode().hex()}","c":[{number},{number},{number}]}}'

    def check(self, registry: Registry) -> None:
        """Calls of each kind, some of which are refused."""
        assert registry.encode("P", self.value) == self.data
        assert registry.decode("P", self.data) == self.value
        assert registry.encode_json("P", self.text) == self.data
        assert registry.decode_json("P", self.data) == self.text
        assert registry.scan("P", self.data + b"more") == len(self.data)
        assert registry.encode('"STR"', self.value["a"]) == self.data[: (len(self.data) - 7) // 2]
        self._check_refusals(registry)

    def _check_refusals(self, registry: Registry) -> None:
        place = len(self.data)
        calls: list[tuple[Callable[[], object], type[Exception], Any]] = [
            (lambda: registry.decode("P", self.data + b"\0"), BytesError, place),
            (lambda: registry.encode_json("P", self.text[:-1] + ',"d":7}'), TextError, None),
            (lambda: registry.encode("P", {**self.value, "a": 7}), ValueTypeError, None),
            (lambda: registry.decode("Q", self.data), FormatError, None),
        ]
        for call, error, expected in calls:
            try:
                call()
            except error as fault:
                assert getattr(fault, "place") == expected, fault
            else:
                raise AssertionError(error)


ROWS = [Row(number, count) for number in (1, 7, 300) for count in LENGTHS]
SHORT = Row(5, 3)


class Threads(unittest.TestCase):
    def test_eight_threads(self) -> None:
        """With one registry, and each with its own."""
        for of_all in (Registry(PAIR), None):
            ended: list[int] = []

            def run(number: int, shared: Any = of_all, ended: list[int] = ended) -> None:
                registry = shared or Registry(PAIR)
                rows = [Row(1000 * number + turn, count) for turn in range(25) for count in LENGTHS]
                for row in rows:
                    row.check(registry)
                ended.append(number)

            interval, threads = sys.getswitchinterval(), [threading.Thread(target=run, args=(n,)) for n in range(8)]
            sys.setswitchinterval(1e-6)
            try:
                for thread in threads:
                    thread.start()
                for thread in threads:
                    thread.join()
            finally:
                sys.setswitchinterval(interval)
            self.assertEqual(sorted(ended), [*range(8)])

    def test_a_dict_that_another_thread_changes(self) -> None:
        """Its members come in another order or are missing for a moment, and no two are ever exchanged."""
        registry = Registry({"T": {"STRUCT": [{"from": "U64"}, {"to": "U64"}]}})
        value, is_over = {"from": 1, "to": 2}, threading.Event()
        whole = (1).to_bytes(8, "little") + (2).to_bytes(8, "little")
        for _ in range(100):
            self.assertEqual(registry.encode("T", value), whole)

        def change() -> None:
            while not is_over.is_set():
                for name in ("from", "to"):
                    part = value.pop(name)
                    value[name] = part

        interval, thread = sys.getswitchinterval(), threading.Thread(target=change)
        sys.setswitchinterval(1e-6)
        thread.start()
        try:
            for _ in range(3000):
                try:
                    self.assertEqual(registry.encode("T", value), whole)
                except TextError as fault:
                    self.assertEqual(fault.reason, "MissingField")
        finally:
            is_over.set()
            thread.join()
            sys.setswitchinterval(interval)


class Nested:
    """Makes calls, and then has a value."""

    def __init__(self, registry: Registry) -> None:
        self.registry = registry
        self.runs = 0

    def run(self) -> None:
        self.runs += 1
        if self.runs % 2:
            SHORT.check(self.registry)
        else:
            ROWS[self.runs % len(ROWS)].check(Registry(PAIR))


class Calling(Mapping[str, Any]):
    def __init__(self, nested: Nested, value: dict[str, Any]) -> None:
        self._nested, self._value = nested, value

    def __getitem__(self, name: str) -> Any:
        self._nested.run()
        return self._value[name]

    def __iter__(self) -> Iterator[str]:
        self._nested.run()
        return iter(self._value)

    def __len__(self) -> int:
        self._nested.run()
        return len(self._value)

    def __getattr__(self, name: str) -> Any:
        self._nested.run()
        raise AttributeError(name)


class Index:
    def __init__(self, run: Callable[[], object], number: int) -> None:
        self._run, self._number = run, number

    def __index__(self) -> int:
        self._run()
        return self._number


class Cyclic:
    """It is collected at any time, and makes calls then."""

    failures: list[BaseException] = []
    runs = 0

    def __init__(self, registry: Registry) -> None:
        self.registry, self.itself = registry, self

    def __del__(self) -> None:
        Cyclic.runs += 1
        try:
            SHORT.check(self.registry)
        except BaseException as fault:
            Cyclic.failures.append(fault)


class CallsWithinCalls(unittest.TestCase):
    def setUp(self) -> None:
        self.library = Library(os.environ["BCS_LIBRARY"])
        self.registry = Registry(PAIR, self.library)

    def tearDown(self) -> None:
        """What is kept refers to no input and no registry, and isn't more than a few questions."""
        for question in self.library.kept:
            self.assertIsNone(question.handle)
            self.assertIsNone(question.first)
        self.assertTrue(0 < len(self.library.kept) <= 8)
        self.assertEqual(len({*map(id, self.library.kept)}), len(self.library.kept))

    def test_mappings_and_indices(self) -> None:
        nested = Nested(self.registry)
        for row in ROWS:
            numbers = [Index(nested.run, number) for number in row.value["c"]]
            value = Calling(nested, {**row.value, "c": numbers})
            self.assertEqual(self.registry.encode("P", value), row.data)
            self.assertTrue(self.registry.equal("P", value, row.value))
            self.assertEqual(self.registry.normalise("P", value), row.value)
        self.assertGreater(nested.runs, 300)

    def test_deep_calls(self) -> None:
        """More calls within one another than questions are kept."""
        format = {"TUPLEARRAY": {"CONTENT": "U16", "SIZE": 3}}
        ended: list[int] = []

        def encode(depth: int) -> None:
            deeper = Index(lambda: encode(depth - 1) if depth else None, 3)
            expected = depth.to_bytes(2, "little") + b"\2\0\3\0"
            self.assertEqual(self.registry.encode(format, [depth, 2, deeper]), expected)
            ended.append(depth)

        encode(20)
        self.assertEqual(ended, [*range(21)])

    def test_exceptions(self) -> None:
        def fail() -> None:
            raise ZeroDivisionError

        for row in ROWS:
            with self.assertRaises(ZeroDivisionError):
                self.registry.encode("P", {**row.value, "c": [Index(fail, 1)]})
            row.check(self.registry)

    def test_finalizers(self) -> None:
        threshold, Cyclic.runs = gc.get_threshold(), 0
        gc.set_threshold(5, 2, 2)
        try:
            for turn in range(400):
                Cyclic(self.registry)
                ROWS[turn % len(ROWS)].check(self.registry)
        finally:
            gc.set_threshold(*threshold)
            gc.collect()
        self.assertEqual((Cyclic.runs, Cyclic.failures), (400, []))

    def test_interrupts(self) -> None:
        """Calls that a signal breaks off, wherever that is, leave later ones as they are."""

        class Broken(Exception):
            ...

        def interrupt(*_: object) -> None:
            raise Broken

        came, turn = 0, 0
        previous = signal.signal(signal.SIGALRM, interrupt)
        try:
            while came < 300:
                turn += 1
                try:
                    signal.setitimer(signal.ITIMER_REAL, 1e-5 * (1 + turn % 30))
                    for _ in range(10_000):
                        ROWS[turn % len(ROWS)].check(self.registry)
                    self.fail("a signal's exception was lost")
                except Broken:
                    came += 1
                SHORT.check(self.registry)
        finally:
            signal.setitimer(signal.ITIMER_REAL, 0)
            signal.signal(signal.SIGALRM, previous)

    def test_a_long_format_is_not_kept(self) -> None:
        long = {"TUPLE": ["U8"] * 2000}
        self.assertEqual(self.registry.encode(long, [7] * 2000), b"\7" * 2000)
        SHORT.check(self.registry)
        self.assertTrue(all(len(question.format_json) <= 4096 for question in self.library.kept))


if __name__ == "__main__":
    unittest.main()
