"""Values that run code while they are converted, that hold themselves or nest without end, bytes that need much memory,
and threads with small stacks."""

import array
import ctypes
import json
import os
import pathlib
import subprocess
import sys
import threading
import unittest
from typing import Any, Callable, Iterator, Mapping

from bcs_proved import BytesError, FormatError, Limits, Registry, RegistryError, TextError, ValueTypeError

HERE = pathlib.Path(__file__).resolve().parent
PAYMENT = {"Payment": {"STRUCT": [{"to": "STR"}, {"amount": "U64"}]}}
PAIR = {"Pair": {"STRUCT": [{"a": "U8"}, {"b": "U8"}]}}
PAYMENTS = {"SEQ": {"TYPENAME": "Payment"}}
LIST = {"L": {"STRUCT": [{"next": {"OPTION": {"TYPENAME": "L"}}}]}}
TREE = {"T": {"NEWTYPESTRUCT": {"SEQ": {"TYPENAME": "T"}}}}
MAPS = {"M": {"NEWTYPESTRUCT": {"MAP": {"KEY": "U8", "VALUE": {"OPTION": {"TYPENAME": "M"}}}}}}
BOB, ALICE = {"to": "bob", "amount": 7}, {"to": "alice", "amount": 5000}
BOB_BYTES, ALICE_BYTES = bytes.fromhex("03626f620700000000000000"), bytes.fromhex("05616c6963658813000000000000")


class Running:
    """An int that runs something when it is read."""

    def __init__(self, run: Callable[[], object], number: int = 7) -> None:
        self.run, self.number = run, number

    def __index__(self) -> int:
        self.run()
        return self.number


class RunningMapping(Mapping[str, Any]):
    """A dict that runs something at each of its calls."""

    def __init__(self, run: Callable[[], object], held: Mapping[str, Any]) -> None:
        self.run, self.held = run, held

    def __getitem__(self, name: str) -> Any:
        self.run()
        return self.held[name]

    def __iter__(self) -> Iterator[str]:
        self.run()
        return iter(self.held)

    def __len__(self) -> int:
        self.run()
        return len(self.held)


class Twice(Mapping[str, Any]):
    """A mapping with a name that comes twice, like a multidict's."""

    def __init__(self, *names: str) -> None:
        self.names = names

    def __getitem__(self, name: str) -> Any:
        return 7

    def __iter__(self) -> Iterator[str]:
        return iter(self.names)

    def __len__(self) -> int:
        return len(self.names)


class OtherList(list):  # type: ignore[type-arg]
    """A list whose methods tell of another one, without end."""

    def __iter__(self) -> Iterator[Any]:
        while True:
            yield 9

    def __len__(self) -> int:
        return 9

    def __getitem__(self, place: Any) -> Any:
        return 9


class OtherText(str):
    """A string that no other one equals, and that prints as another one."""

    def __eq__(self, _: object) -> bool:
        return False

    def __hash__(self) -> int:
        return id(self)

    def __str__(self) -> str:
        return "other"


class Impostor:
    """What passes for a name in a dict."""

    def __eq__(self, _: object) -> bool:
        return True

    def __hash__(self) -> int:
        return hash("to")


class OtherBytes(bytes):
    def __bytes__(self) -> bytes:
        return b"other"

    def __iter__(self) -> Iterator[int]:
        return iter(b"other")

    def hex(self, *_: Any) -> str:
        return "ff"


class EndlessBytes(bytearray):
    def __iter__(self) -> Iterator[int]:
        while True:
            yield 9


class EndlessArray(array.array):  # type: ignore[type-arg]
    def __iter__(self) -> Iterator[int]:
        while True:
            yield 9


class ShortArray(array.array):  # type: ignore[type-arg]
    def __iter__(self) -> Iterator[int]:
        yield 9


class Reentrant(unittest.TestCase):
    """What a value runs makes calls of its own, and neither call sees anything of the other."""

    def setUp(self) -> None:
        self.registry = Registry({**PAYMENT, **PAIR, **LIST, **TREE})
        self.runs = 0

    def calls(self) -> None:
        """Each call, with a text that is longer than what it is called from, and one that is refused."""
        self.runs += 1
        self.assertEqual(self.registry.encode("Payment", ALICE), ALICE_BYTES)
        self.assertEqual(
            self.registry.encode({"SEQ": "U64"}, [self.runs] * 100),
            bytes([100]) + self.runs.to_bytes(8, "little") * 100,
        )
        self.assertEqual(self.registry.normalise("Payment", ALICE), ALICE)
        self.assertTrue(self.registry.equal("Payment", ALICE, ALICE))
        self.assertEqual(self.registry.decode("Payment", ALICE_BYTES), ALICE)
        with self.assertRaises(ValueTypeError):
            self.registry.encode("Payment", {"to": "eve", "amount": b"7"})
        with self.assertRaises(TextError):
            self.registry.encode("Payment", {"to": "eve"})

    def test_calls_within(self) -> None:
        running = {"to": "bob", "amount": Running(self.calls)}
        mapping = RunningMapping(self.calls, BOB)
        for value in [running, mapping, RunningMapping(self.calls, running)]:
            self.assertEqual(self.registry.encode("Payment", value), BOB_BYTES)
            self.assertEqual(self.registry.normalise("Payment", value), BOB)
            self.assertTrue(self.registry.equal("Payment", value, BOB))
            self.assertTrue(self.registry.equal("Payment", BOB, value))
            self.assertEqual(self.registry.encode(PAYMENTS, [value, BOB, value]), b"\3" + BOB_BYTES * 3)
        self.assertGreater(self.runs, 15)

    def test_calls_within_formats(self) -> None:
        format = RunningMapping(self.calls, {"SEQ": RunningMapping(self.calls, {"TYPENAME": "Payment"})})
        self.assertEqual(self.registry.encode(format, [BOB]), b"\1" + BOB_BYTES)
        self.assertEqual(self.registry.decode(format, b"\1" + BOB_BYTES), [BOB])
        self.assertEqual(Registry(RunningMapping(self.calls, PAYMENT)).encode("Payment", BOB), BOB_BYTES)
        self.assertGreater(self.runs, 5)

    def test_endless_calls_within(self) -> None:
        """A value that encodes itself comes to an end as Python's own calls do, and the registry is good after it."""
        running = Running(lambda: self.registry.encode('"U8"', running))
        with self.assertRaises(RecursionError):
            self.registry.encode('"U8"', running)
        self.calls()

    def test_closing_within(self) -> None:
        for value in [{"to": "bob", "amount": Running(self.registry.close)}, RunningMapping(self.registry.close, BOB)]:
            self.setUp()
            self.assertEqual(self.registry.encode("Payment", RunningMapping(self.registry.close, value)), BOB_BYTES)
            with self.assertRaisesRegex(ValueError, "closed"):
                self.registry.decode("Payment", BOB_BYTES)

    def test_raising_within(self) -> None:
        """What the caller's code raises comes out as it is."""
        for value in [{"to": "bob", "amount": Running(lambda: 1 // 0)}, RunningMapping(lambda: 1 // 0, BOB)]:
            with self.assertRaises(ZeroDivisionError):
                self.registry.encode("Payment", value)

    def test_changes_within(self) -> None:
        """A list or dict is as it was when its turn came, whatever its parts do to it."""
        growing: list[Any] = []
        growing += [Running(lambda: growing.append(9), 1), 2, 3]
        self.assertEqual(self.registry.encode({"SEQ": "U8"}, growing), b"\3\1\2\3")
        shrinking: list[Any] = []
        shrinking += [Running(shrinking.clear, 1), 2, 3]
        self.assertEqual(self.registry.encode({"TUPLE": ["U8", "U8", "U8"]}, shrinking), b"\1\2\3")
        fields: dict[str, Any] = {"to": "bob", "amount": 7}
        fields["amount"] = Running(fields.clear)
        self.assertEqual(self.registry.encode("Payment", fields), BOB_BYTES)
        entries: dict[Any, Any] = {1: 2}
        entries[3] = Running(lambda: entries.update({number: 0 for number in range(100)}), 4)
        self.assertEqual(self.registry.encode({"MAP": {"KEY": "U8", "VALUE": "U8"}}, entries), b"\2\1\2\3\4")
        data = bytearray(b"\1\2")
        pair = [Running(lambda: data.extend(b"\3" * 1000)), data]
        self.assertEqual(self.registry.encode({"TUPLE": ["U8", "BYTES"]}, pair), b"\7" + b"\xea\7\1\2" + b"\3" * 1000)
        pair = [data, Running(data.clear)]
        self.assertEqual(self.registry.encode({"TUPLE": ["BYTES", "U8"]}, pair), b"\xea\7\1\2" + b"\3" * 1000 + b"\7")

    def test_buffers_that_change(self) -> None:
        """Another thread writes to a buffer: each call has it as it was at one time."""
        data, is_done = bytearray(1000), threading.Event()

        def write() -> None:
            while not is_done.is_set():
                data[:] = b"\xff" * 1000
                data[:] = bytes(1000)

        thread = threading.Thread(target=write)
        thread.start()
        try:
            for _ in range(2000):
                self.assertEqual(
                    len(set(self.registry.encode({"TUPLEARRAY": {"CONTENT": "U8", "SIZE": 1000}}, data))), 1
                )
        finally:
            is_done.set()
            thread.join()

    def test_classes_that_lie(self) -> None:
        """A list, a string, bytes or an int is what it holds, and not what its class makes of it."""
        self.assertEqual(self.registry.encode({"SEQ": "U8"}, OtherList([1, 2])), b"\2\1\2")
        self.assertEqual(self.registry.encode({"TUPLE": ["U8"]}, OtherList([1])), b"\1")
        self.assertEqual(self.registry.encode('"BYTES"', OtherBytes(b"ab")), b"\2ab")
        self.assertEqual(self.registry.encode({"SEQ": "U8"}, EndlessBytes(b"ab")), b"\2ab")
        self.assertEqual(
            self.registry.encode("Payment", {OtherText("amount"): 7, OtherText("to"): OtherText("bob")}), BOB_BYTES
        )
        self.assertEqual(self.registry.encode("Pair", Twice("a", "b")), b"\7\7")
        wrong: list[tuple[Any, Any]] = [
            ({"SEQ": "U16"}, EndlessBytes(b"ab")),
            ({"SEQ": "U16"}, EndlessArray("H", [1, 2])),
            ({"SEQ": "U16"}, ShortArray("H", [1, 2])),
            ("Payment", {"amount": 7, Impostor(): "bob"}),
            ("Payment", {"amount": 7, OtherText("to"): "bob", OtherText("to"): "eve"}),
            ("Pair", Twice("a", "b", "b")),
        ]
        for format, value in wrong:
            with self.assertRaises(ValueTypeError):
                self.registry.encode(format, value)


class Nesting(unittest.TestCase):
    def setUp(self) -> None:
        self.registry = Registry({**PAYMENT, **LIST, **TREE, **MAPS})

    def test_cycles(self) -> None:
        cyclic: list[Any] = []
        cyclic.append(cyclic)
        wide: list[Any] = []
        wide += [wide, wide]
        link: dict[str, Any] = {}
        link["next"] = {"some": link}
        for format, value in [("T", cyclic), ("T", wide), ("L", link)]:
            calls: list[Callable[..., Any]] = [self.registry.encode, self.registry.normalise]
            for call in calls:
                with self.assertRaises(TextError) as raised:
                    call(format, value)
                self.assertEqual((raised.exception.reason, raised.exception.at), ("TooNested", ""))
        with self.assertRaises(ValueTypeError) as wrong:
            self.registry.encode({"SEQ": {"SEQ": "U8"}}, cyclic)
        self.assertEqual(wrong.exception.at, "/0/0")
        format_of_itself: dict[str, Any] = {}
        format_of_itself["SEQ"] = format_of_itself
        with self.assertRaises(FormatError):
            self.registry.check(format_of_itself)
        with self.assertRaises(RegistryError):
            Registry({"A": format_of_itself})

    def test_shared_parts(self) -> None:
        """61 lists are 2**60 nodes, if each is in the next one twice. A limit on nodes ends the conversion early."""
        value: list[Any] = []
        for _ in range(60):
            value = [value, value]
        calls: list[Callable[..., Any]] = [self.registry.encode, self.registry.normalise]
        for call in calls:
            with self.assertRaises(TextError) as raised:
                call("T", value, Limits(nodes=10000))
            self.assertEqual((raised.exception.reason, raised.exception.at), ("TooManyNodes", ""))
            self.assertEqual(raised.exception.message, "the value has more nodes than the limit, 10000")

    def test_nodes_that_suffice(self) -> None:
        """The conversion ends early only for values that surely have more nodes."""
        registry = Registry({"Empty": {"STRUCT": []}})
        rows: list[tuple[Any, Any, int]] = [
            ({"MAP": {"KEY": "BYTES", "VALUE": "BYTES"}}, [[bytes([key]), b""] for key in range(200)], 401),
            ({"MAP": {"KEY": "U8", "VALUE": {"OPTION": "BYTES"}}}, [[key, {"some": b""}] for key in range(200)], 601),
            ({"SEQ": {"SEQ": "BOOL"}}, [[]] * 5000, 5001),
            ({"SEQ": {"TYPENAME": "Empty"}}, [{}] * 5000, 10001),
            ({"SEQ": "UNIT"}, [None] * 5000, 5001),
        ]
        for format, value, nodes in rows:
            data = registry.encode(format, value)
            self.assertEqual(registry.encode(format, value, Limits(nodes=nodes)), data)
            with self.assertRaises(TextError) as raised:
                registry.encode(format, value, Limits(nodes=nodes - 1))
            self.assertEqual(raised.exception.reason, "TooManyNodes")

    def test_depth(self) -> None:
        """The library reads 100 levels of JSON, and values have as many: here each level is one of its text."""
        for levels in [99, 100, 101, 102, 5000]:
            value: Any = []
            for _ in range(levels - 1):
                value = [value]
            is_value = self.answers_as_its_text("T", value) if levels < 128 else self.is_too_nested("T", value)
            self.assertEqual(is_value, levels <= 100)
        for levels in range(96, 106):
            value = [[], [[7, None]], [[7, {"some": []}]]][levels % 3]
            for _ in range(levels // 3):
                value = [[7, {"some": value}]]
            self.assertEqual(self.answers_as_its_text("M", value), levels + (levels % 3 == 2) < 100, levels)

    def answers_as_its_text(self, format: str, value: Any) -> bool:
        """Whether it is a value, or nests too deep."""
        try:
            data = self.registry.encode_json(format, json.dumps(value))
        except TextError:
            return self.is_too_nested(format, value)
        self.assertEqual(self.registry.encode(format, value), data)
        return True

    def is_too_nested(self, format: str, value: Any) -> bool:
        with self.assertRaises(TextError) as raised:
            self.registry.encode(format, value)
        self.assertEqual((raised.exception.reason, raised.exception.at), ("TooNested", ""))
        self.assertEqual(raised.exception.message, "arrays and objects are nested more than 100 levels deep")
        return False

    def test_newtypes(self) -> None:
        """500 containers may be open, and no chain of names takes Python's stack."""
        for count, answer in [(500, b"\7"), (501, "TooDeep"), (20000, "TooDeep")]:
            names = [f"N{place}" for place in range(count)]
            inner = [{"TYPENAME": name} for name in names[1:]] + ["U8"]
            registry = Registry({name: {"NEWTYPESTRUCT": held} for name, held in zip(names, inner)})
            self.assertEqual(self.encoded(registry, "N0", 7), answer)
        count = 5000
        structs = {
            f"S{place}": {"STRUCT": [{"x": {"OPTION": {"TYPENAME": f"S{(place + 1) % count}"}}}]}
            for place in range(count)
        }
        self.assertEqual(self.encoded(Registry(structs), "S0", {"x": {"some": {"x": None}}}), b"\1\0")
        lists = {
            f"S{place}": {"NEWTYPESTRUCT": {"SEQ": {"TYPENAME": f"S{(place + 1) % count}"}}} for place in range(count)
        }
        self.assertEqual(self.encoded(Registry(lists), "S0", [[], [[]]]), b"\2\0\1\0")

    def encoded(self, registry: Registry, format: str, value: Any) -> Any:
        try:
            return registry.encode(format, value)
        except TextError as fault:
            return fault.reason

    def test_near_the_end_of_pythons_stack(self) -> None:
        def call_at(depth: int) -> None:
            if depth > 0:
                call_at(depth - 1)
            else:
                self.registry.encode("Payment", BOB)

        ended = False
        for depth in range(sys.getrecursionlimit()):
            try:
                call_at(depth)
            except (RecursionError, ctypes.ArgumentError):
                ended = True
                break
        self.assertTrue(ended)
        self.assertEqual(self.registry.encode("Payment", BOB), BOB_BYTES)


class Order(unittest.TestCase):
    def test_formats_first(self) -> None:
        """A fault of the format is reported before one of the value, and before the value's code runs."""
        registry = Registry(PAYMENT)
        formats: list[tuple[Any, str]] = [
            ("Paymen", "UnknownName"),
            ('"u64"', "BadShape"),
            ({"SEQ": {"TYPENAME": "x"}}, "UnknownName"),
            ('{"SEQ"', "NotJson"),
        ]
        for format, reason in formats:
            for value in [b"7", object(), Running(self.fail)]:
                for _ in range(2):
                    with self.assertRaises(FormatError) as raised:
                        registry.encode(format, value)
                    self.assertEqual(raised.exception.reason, reason)

    def test_many_formats(self) -> None:
        """What is remembered of formats has an end."""
        registry = Registry({})
        for size in range(1, 2500):
            with self.assertRaises(TextError):
                registry.encode({"TUPLEARRAY": {"CONTENT": "U8", "SIZE": size + 1}}, [])
        self.assertLessEqual(len(registry._known_formats), 1000)


class Memory(unittest.TestCase):
    """Values whose elements need no bytes."""

    UNITS = {"SEQ": "UNIT"}

    def test_five_bytes(self) -> None:
        """They are refused in little memory, unless all limits are lifted."""
        script = (
            "import resource, sys; from bcs_proved import BytesError, Limits, Registry\n"
            "registry = Registry({})\n"
            "resource.setrlimit(resource.RLIMIT_AS, (400_000_000, 400_000_000))\n"
            "limits = {'limits': eval(sys.argv[1])} if sys.argv[1:] else {}\n"
            "calls = [registry.decode, registry.decode_json, registry.scan, registry.explain_text, registry.explain]\n"
            "for call in [*calls, lambda format, data, **limits: registry.part(format, data, '.', **limits)]:\n"
            "    try:\n"
            "        told = call({'SEQ': 'UNIT'}, bytes.fromhex('ffffffff07'), **limits)\n"
            "        print(told if isinstance(told, str) else told[-1])\n"
            "    except BytesError as fault:\n"
            "        print(fault.reason, fault.place, fault.at)\n"
            "    except MemoryError:\n"
            "        print('MemoryError')\n"
        )
        for words in ["", "Limits()", "Limits(depth=10)", "None"]:
            told = run("-c", script, *words.split())
            self.assertEqual((told.returncode, told.stderr), (0, ""))
            self.assertEqual(told.stdout.count("TooManyNodes"), 6, told.stdout)
        told = run("-c", script.replace("[*calls, lambda", "[registry.decode] or [lambda"), "Limits.standard()")
        self.assertEqual((told.returncode, told.stdout, told.stderr), (0, "MemoryError\n", ""))

    def test_shared_parts(self) -> None:
        """A value that holds others many times takes little memory, and its JSON would take gigabytes. If it has more
        nodes than are allowed, it is refused in little memory and time."""
        script = (
            "import resource, sys, time; from bcs_proved import Limits, Registry, TextError\n"
            "fields = [{f'f{place}': {'SEQ': 'U64'}} for place in range(1000)]\n"
            "payload = {'1': {'a': {'NEWTYPE': {'SEQ': 'U64'}}}}\n"
            "registry = Registry({'S': {'STRUCT': fields}, 'E': {'ENUM': payload}})\n"
            "resource.setrlimit(resource.RLIMIT_AS, (400_000_000, 400_000_000))\n"
            "numbers, text, octets = [2**40] * 30000, 'x' * 50000, bytes(50000)\n"
            "large, wide = bytes(2**24), 'x' * 2**24\n"
            "format, value = map(eval, sys.argv[1:])\n"
            "start = time.process_time()\n"
            "try:\n"
            "    registry.encode(format, value, Limits(nodes=1000))\n"
            "except TextError as fault:\n"
            "    print(fault.reason, time.process_time() - start < 5)\n"
        )
        for format, value in [
            ("{'SEQ': {'SEQ': 'U64'}}", "[numbers] * 60000"),
            ("{'SEQ': {'TUPLE': [{'SEQ': 'U64'}, 'U8']}}", "[(numbers, 7)] * 60000"),
            ("{'TUPLE': [{'SEQ': 'U64'}] * 1000}", "[numbers] * 1000"),
            ("{'TUPLEARRAY': {'CONTENT': {'SEQ': 'U64'}, 'SIZE': 60000}}", "[numbers] * 60000"),
            ("{'MAP': {'KEY': 'U64', 'VALUE': {'SEQ': 'U64'}}}", "dict.fromkeys(range(60000), numbers)"),
            ("{'MAP': {'KEY': {'SEQ': 'U64'}, 'VALUE': 'U8'}}", "[(numbers, 7)] * 60000"),
            ("'S'", "{f'f{place}': numbers for place in range(1000)}"),
            ("{'SEQ': {'TYPENAME': 'S'}}", "[dict.fromkeys((f'f{i}' for i in range(1000)), numbers)] * 900"),
            ("{'SEQ': {'TYPENAME': 'E'}}", "[{'a': numbers}] * 60000"),
            ("{'SEQ': {'OPTION': {'SEQ': 'U64'}}}", "[{'some': numbers}] * 60000"),
            ("{'SEQ': {'SEQ': {'SEQ': 'U64'}}}", "[[[2**40] * 3000] * 60000] * 60000"),
            ("{'SEQ': {'SEQ': 'BOOL'}}", "[[True] * 60000] * 60000"),
            ("{'SEQ': {'SEQ': 'STR'}}", "[[text] * 60] * 60000"),
            ("{'SEQ': {'SEQ': 'BYTES'}}", "[[octets] * 60] * 60000"),
            ("{'SEQ': {'SEQ': 'U8'}}", "[octets] * 60000"),
            ("{'SEQ': {'SEQ': 'U8'}}", "[large] * 60000"),
            ("{'SEQ': {'SEQ': 'U8'}}", "[[7] * 60000] * 60000"),
            ("{'SEQ': {'TUPLEARRAY': {'CONTENT': 'U8', 'SIZE': 50000}}}", "[octets] * 60000"),
        ]:
            told = run("-c", script, format, value)
            self.assertEqual(
                (told.returncode, told.stdout, told.stderr), (0, "TooManyNodes True\n", ""), (format, value)
            )

    def test_shared_parts_by_default(self) -> None:
        """Without limits, too, such values are refused before anything is written. Neither long lists nor bytes are
        taken for them."""
        script = (
            "import resource, sys, time; from bcs_proved import Limits, Registry, TextError\n"
            "registry = Registry({'T': {'NEWTYPESTRUCT': {'SEQ': {'TYPENAME': 'T'}}},"
            " 'S': {'STRUCT': [{'a': {'OPTION': {'TYPENAME': 'S'}}}, {'b': {'OPTION': {'TYPENAME': 'S'}}}]}})\n"
            "resource.setrlimit(resource.RLIMIT_AS, (400_000_000, 400_000_000))\n"
            "lists, fields, pairs = [], {'a': None, 'b': None}, ()\n"
            "for _ in range(40):\n"
            " lists, fields, pairs = [lists, lists], {'a': fields, 'b': fields}, [pairs, (), pairs]\n"
            "texts = ['x' * 10**6] * 2000\n"
            "format, value, limits = map(eval, sys.argv[1:])\n"
            "start = time.process_time()\n"
            "try:\n"
            "    registry.encode(format, value, limits)\n"
            "except TextError as fault:\n"
            "    print(fault.reason, time.process_time() - start < 20)\n"
        )
        for format, value, limits, reason in [
            ("'T'", "lists", "None", "TooManyNodes"),
            ("'T'", "[lists]", "Limits(depth=100)", "TooManyNodes"),
            ("'T'", "lists", "Limits.standard()", "TooManyNodes"),
            ("'T'", "pairs", "None", "TooManyNodes"),
            ("'S'", "fields", "None", "TooManyNodes"),
            (
                "{'SEQ': {'SEQ': 'UNIT'}}",
                "[[None] * 5000] * 5000",
                "None",
                "TooManyNodes",
            ),
            ("{'SEQ': {'SEQ': 'STR'}}", "[texts]", "None", "TooLong"),
            (
                "{'SEQ': 'BYTES'}",
                "[bytes(2**24)] * 100",
                "Limits.standard()",
                "TooLong",
            ),
        ]:
            memory = "1_500_000_000" if reason == "TooLong" else "400_000_000"
            told = run("-c", script.replace("400_000_000", memory), format, value, limits)
            self.assertEqual(
                (told.returncode, told.stdout, told.stderr),
                (0, f"{reason} True\n", ""),
                (format, value),
            )

    def test_formats_that_are_remembered(self) -> None:
        """Formats may come from strangers, so a registry forgets them."""
        registry = Registry({})
        for size in range(1, 2500):
            format = {"TUPLEARRAY": {"CONTENT": "UNIT", "SIZE": size}}
            self.assertEqual(
                registry.decode(format, registry.encode(format, [None] * size)),
                [None] * size,
            )
        self.assertTrue(0 < len(registry._known_readers) <= 1000)
        self.assertTrue(0 < len(registry._known_formats) <= 1000)

    def test_the_default_for_values(self) -> None:
        """It counts a list and its items, as `limits` do, but no bytes."""
        registry, most = Registry({}), 16_777_216
        octets = bytes(most + 1)
        self.assertEqual(registry.encode({"SEQ": "U8"}, octets)[-len(octets) :], octets)
        with self.assertRaises(TextError) as raised:
            registry.encode({"SEQ": "UNIT"}, [None] * (most + 1))
        self.assertEqual(
            raised.exception.message,
            "the value has more nodes than the limit, 16777216",
        )

    def test_the_limit(self) -> None:
        """16 for each byte and 65,536 more; the list itself is one, and so is each unit. Three bytes are the
        length."""
        registry = Registry({})
        most = 65_536 + 16 * 3 - 1
        for count, limits, is_value in [
            (most, None, True),
            (most + 1, None, False),
            (most + 1, Limits(depth=7), False),
            (most + 1, Limits.standard(), True),
            (most + 1, Limits(nodes=most + 2), True),
            (most + 1, Limits(nodes=most + 1), False),
        ]:
            data = bytes([count % 128 + 128, count // 128 % 128 + 128, count // 128 // 128])
            if is_value:
                self.assertEqual(registry.scan(self.UNITS, data, limits), 3)
                continue
            with self.assertRaises(BytesError) as raised:
                registry.scan(self.UNITS, data, limits)
            self.assertEqual((raised.exception.reason, raised.exception.place), ("TooManyNodes", 3))
        # (a text and a value have no such limit)
        units = [None] * (most + 1)
        self.assertEqual(len(registry.encode(self.UNITS, units)), 3)
        self.assertEqual((Limits.standard().depth, Limits.standard().nodes), (500, 2**32 - 1))

    def test_long_names(self) -> None:
        """Three bytes announce 40,000 structs of 20 units, and a decoded value repeats their names. The longer these
        are, the fewer nodes are allowed."""
        script = (
            "import resource, sys; from bcs_proved import BytesError, Registry\n"
            "peak = lambda: resource.getrusage(resource.RUSAGE_SELF).ru_maxrss\n"
            "fields = [{f'{place:02}' + 'n' * (int(sys.argv[1]) - 2): 'UNIT'} for place in range(20)]\n"
            "registry, before = Registry({'S': {'STRUCT': fields}}), peak()\n"
            "units = {'SEQ': {'TYPENAME': 'S'}}\n"
            "for call in [registry.decode, registry.decode_json, registry.explain_text, registry.explain]:\n"
            "    try:\n"
            "        call(units, bytes.fromhex('c0b802'))\n"
            "    except BytesError as fault:\n"
            "        assert fault.reason == 'TooManyNodes'\n"
            "print((peak() - before) // 1000)\n"
        )
        for length in [2, 64, 65, 1000, 30000]:
            told = run("-c", script, str(length))
            self.assertEqual((told.returncode, told.stderr), (0, ""), length)
            self.assertLess(int(told.stdout), 50, length)

    def test_large_byte_strings(self) -> None:
        """They take five times their size."""
        script = (
            "import resource, sys; from bcs_proved import Registry\n"
            "peak = lambda: resource.getrusage(resource.RUSAGE_SELF).ru_maxrss * 1024\n"
            "data = b'\\x80\\x80\\x80\\x10' + bytes(2 ** 25)\n"
            "value, registry = data[4:], Registry({})\n"
            "before = peak()\n"
            "found = registry.encode('\"BYTES\"', value) if sys.argv[1:] else registry.decode('\"BYTES\"', data)\n"
            "assert found == (data if sys.argv[1:] else value)\n"
            "print((peak() - before) / 2 ** 25)\n"
        )
        calls: list[list[str]] = [["encode"], []]
        for words in calls:
            told = run("-c", script, *words)
            self.assertEqual((told.returncode, told.stderr), (0, ""))
            self.assertLess(float(told.stdout), 5.2)
            self.assertGreater(float(told.stdout), 2)


class Stacks(unittest.TestCase):
    def test_small_stacks(self) -> None:
        """Each call is done, or raises StackError; and with 8 MiB all are done."""
        few = ["encode a number: done", "encode a list of 10: done", "decode 31 levels: done"]
        for size, done in [(32768, few[:0]), (65536, few[:0]), (131072, few[:1]), (262144, few), (8388608, few)]:
            told = run(str(HERE / "small_stacks.py"), str(size))
            self.assertEqual((told.returncode, told.stderr), (0, ""), size)
            lines = told.stdout.splitlines()
            self.assertEqual(len(lines), 18)
            ends = {line.split(": ")[1] for line in lines}
            self.assertLessEqual(ends, {"done"} if size == 8388608 else {"done", "StackError"}, size)
            self.assertEqual("StackError" in ends, size < 8388608, size)
            self.assertLessEqual(set(done), set(lines), size)


def run(*words: str) -> "subprocess.CompletedProcess[str]":
    environment = {**os.environ, "PYTHONPATH": str(HERE.parent)}
    return subprocess.run([sys.executable, *words], env=environment, capture_output=True, text=True, check=False)


if __name__ == "__main__":
    unittest.main()
