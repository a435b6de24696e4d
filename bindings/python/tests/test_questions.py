"""Questions to the library, as bindings/c/include/bcs.h declares them, and the messages of refusals."""

import os
import pathlib
import re
import signal
import sys
import threading
import unittest
import unittest.mock
from typing import Any

from bcs_proved import (
    BytesError,
    Form,
    FormatError,
    GrowthError,
    Library,
    ModulesError,
    Registry,
    RegistryError,
    TextError,
    library,
    registry_of_modules,
)
from bcs_proved.library import Call, Question, Status

HEADER = pathlib.Path(__file__).resolve().parents[2] / "c/include/bcs.h"


def header() -> str:
    return re.sub(r"/\*.*?\*/", "", HEADER.read_text(encoding="utf-8"), flags=re.DOTALL)


def enum_of(name: str) -> dict[str, int]:
    found = re.search(rf"enum {name} \{{(.*?)\}};", header(), re.DOTALL)
    assert found, name
    return {constant: int(number) for constant, number in re.findall(r"\bBCS_(\w+) = (\d+)", found[1])}


def registry_with(name: str) -> Registry:
    return Registry({"A": {"STRUCT": [{name: "BOOL"}]}})


class Header(unittest.TestCase):
    def test_numbers(self) -> None:
        self.assertEqual(Call.__members__, enum_of("bcs_call"))
        self.assertEqual(Status.__members__, enum_of("bcs_status"))
        self.assertEqual({**Form.__members__, "NOTES": 4}, enum_of("bcs_form"))

    def test_members(self) -> None:
        found = re.search(r"typedef struct bcs_question \{(.*?)\}", header(), re.DOTALL)
        assert found
        self.assertEqual([name for name, _ in Question._fields_], re.findall(r"(\w+);", found[1]))

    def test_another_layout(self) -> None:
        with unittest.mock.patch.object(library, "_SIZE", 80), self.assertRaisesRegex(ImportError, "bcs_question"):
            library._require_layout()

    def test_questions_of_another_version(self) -> None:
        """The library doesn't answer them, and the error says which library that is."""
        own = Library(os.environ["BCS_LIBRARY"])
        older, unknown = Question(own), Question(own)
        older.size -= 8
        unknown_call: Any = 99
        for answer in (older.ask(Call.PATH_PLACE, second=b"x", room=100), unknown.ask(unknown_call)):
            self.assertEqual(answer.status, Status.NO_CALL)
            with self.assertRaisesRegex(NotImplementedError, re.escape(own.path)):
                unknown.require(answer, TextError)

    def test_formats_with_a_nul(self) -> None:
        """C's strings would end there."""
        registry = Registry("{}")
        self.assertEqual(registry.encode('"U8"', 7), b"\7")
        self.assertEqual(registry.decode('"U8"', b"\7"), 7)
        for call, word in ((registry.encode, 7), (registry.decode, b"\7"), (registry.scan, b"\7")):
            with self.assertRaises(FormatError) as raised:
                call('"U8"\0', word)  # type: ignore[operator]
            self.assertEqual(raised.exception.reason, "NotJson")

    def test_registries_that_only_another_library_accepts(self) -> None:
        for refused in range(2):
            older, newer = registries = Registry("{}"), Registry("{}")
            registries[refused]._text = b"{"
            for call in (older.grows, older.require_growth, older.differences):
                with self.assertRaises(RegistryError) as raised:
                    call(newer)
                self.assertEqual(raised.exception.reason, "NotJson")
                self.assertRegex(raised.exception.message, "^line 1, column 1: ")


class Messages(unittest.TestCase):
    def test_one_call_for_each_refusal(self) -> None:
        """Another one asks for the name of the fault, once."""
        own = Library(os.environ["BCS_LIBRARY"])
        older, newer = Registry({"A": {"STRUCT": [{"x": "BOOL"}]}}, own), Registry("{}", own)
        asked: list[int] = []
        ask = own.functions["bcs_ask"]

        def counted(handle: Any, question: Question, *words: Any) -> Any:
            asked.append(question.call)
            return ask(handle, question, *words)

        own.functions["bcs_ask"] = counted
        calls: list[tuple[Call, type[Exception], str, Any]] = [
            (Call.TO_BCS, TextError, "/x", lambda: older.encode_json("A", '{"x":7}')),
            (Call.NORMALISE, TextError, "/x", lambda: older.normalise_json("A", '{"x":7}')),
            (Call.COMPARE, TextError, "/x", lambda: older.equal_json("A", '{"x":true}', '{"x":7}')),
            (Call.FROM_BCS, BytesError, ".x", lambda: older.decode_json("A", b"\7")),
            (Call.SCAN, BytesError, ".x", lambda: older.scan("A", b"\7")),
            (Call.PART, BytesError, ".x", lambda: older.part("A", b"\7", "0")),
            (Call.PART_NAMED, BytesError, ".x", lambda: older.part_by_name("A", b"\7", ".x")),
            (Call.CONTENT, BytesError, ".x", lambda: older.content("A", b"\7", "0")),
            (Call.GROWS, GrowthError, "A", lambda: older.require_growth(newer)),
            (Call.REGISTRY_OF_MODULES, ModulesError, "x", lambda: registry_of_modules("[]", ["x"], own)),
        ]
        for number, error, at, call in calls:
            for _ in range(2):
                asked.clear()
                with self.subTest(number), self.assertRaises(error) as raised:
                    call()
                self.assertEqual(getattr(raised.exception, "at"), at)
            self.assertEqual(asked, [number])

    def test_long_messages(self) -> None:
        """They are what the calls for refusals alone report, also where the first buffer is too short for them."""
        for length in [*range(130, 220), 100_000, 300_000]:
            registry = registry_with("x" * length)
            assert registry._handle
            question = Question(registry._library, registry._handle, b'{"TYPENAME":"A"}', 100, 100)
            text = f'{{"{"x" * length}":7}}'
            for error, call, data, report in (
                (BytesError, registry.decode_json, b"\7", Call.STOP_REFUSAL),
                (TextError, registry.encode_json, text.encode(), Call.TEXT_REFUSAL),
            ):
                with self.assertRaises(error) as raised:
                    call("A", data)
                reported = question.ask(report, data, room=length + 100).output.tobytes()
                at, message = getattr(raised.exception, "at"), getattr(raised.exception, "message")
                self.assertEqual(f"{at}\0{message}".encode(), reported)
                self.assertEqual(len(at), length + 1)

    def refused(self, name: str) -> None:
        """A refusal has its own message."""
        with self.assertRaises(BytesError) as raised:
            registry_with(name).scan("A", b"\7")
        self.assertEqual(raised.exception.at, f".{name}")
        self.assertIn("found 07", raised.exception.message)

    def test_calls_within_calls(self) -> None:
        """A signal may come before a message is read, and what it runs may be refused, too."""
        came = 0

        def refused_otherwise(*_: object) -> None:
            nonlocal came
            came += 1
            self.refused("other")

        previous = signal.signal(signal.SIGALRM, refused_otherwise)
        try:
            while came < 200:
                # (once, so that it never interrupts itself)
                signal.setitimer(signal.ITIMER_REAL, 1e-5 * (1 + came % 20))
                self.refused("own")
        finally:
            signal.setitimer(signal.ITIMER_REAL, 0)
            signal.signal(signal.SIGALRM, previous)

    def test_threads(self) -> None:
        ended: list[int] = []

        def refuse_all(number: int) -> None:
            for length in range(100, 200):
                self.refused(f"{number}" * length)
            ended.append(number)

        interval, threads = sys.getswitchinterval(), [threading.Thread(target=refuse_all, args=(n,)) for n in range(8)]
        sys.setswitchinterval(1e-6)
        try:
            for thread in threads:
                thread.start()
            for thread in threads:
                thread.join()
        finally:
            sys.setswitchinterval(interval)
        self.assertEqual(sorted(ended), [*range(8)])


if __name__ == "__main__":
    unittest.main()
