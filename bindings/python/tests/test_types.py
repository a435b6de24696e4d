"""The types that `bcs_proved.types` writes, judged by mypy: right and wrong values, what random values are decoded to,
and the README's example; and the command."""

import json
import os
import pathlib
import random
import runpy
import shutil
import subprocess
import sys
import tempfile
import unittest
from typing import Any, Callable

from bcs_proved import Name, Registry, RegistryError, TextError
from bcs_proved.types import _Identifiers, module_of

HERE = pathlib.Path(__file__).resolve().parent
ROOT = HERE.parents[2]
REGISTRIES = {
    "aptos": ROOT / "examples/aptos_registry.json",
    "sui": ROOT / "examples/sui_registry.json",
    "shapes": ROOT / "bindings/web/tests/shapes.json",
    "hostile": ROOT / "tests/rows/hostile_names.json",
    "move": HERE / "move.json",
}
# The names that a registry is opened with.
NAMES = {"move": {"address": ["address", "Account"]}}
EACH = 3
TEXTS = ["", "a", '"', "'", "\\", "\n", "\u2028", "名前", "😀", "%s", "{x}", "\0"]


MOVE_NAMES = {
    "0x1::coin::transfer<0x1::aptos_coin::AptosCoin>": "transfer_AptosCoin",
    "0x1::coin::transfer<0x1::aptos_coin::AptosCoin>::arg0": "transfer_AptosCoin_arg0",
    "0x1::coin::CoinStore<0x1::aptos_coin::AptosCoin>": "CoinStore_AptosCoin",
    "0x2::dynamic_field::Field<address, vector<u8>>": "Field_address_vector_u8",
    "vector<u8>": "vector_u8",
    "0x1::m::Twice": "T0x1_m_Twice",
    "0x2::m::Twice": "T0x2_m_Twice",
    "0x1::m::Pair<0x1::a::A>": "T0x1_m_Pair_0x1_a_A",
    "0x1::m::Pair<0x2::a::A>": "T0x1_m_Pair_0x2_a_A",
    "0x1::m::Plain": "T0x1_m_Plain",
    "Plain": "Plain",
    "0x1::m::Union": "T0x1_m_Union",
}


class NoValue(Exception):
    """There is no value of this format, or none within so many containers."""


class Values:
    """Random values of a registry's containers, as `decode` returns them."""

    def __init__(self, containers: dict[str, Any], names: dict[str, list[str]]) -> None:
        self._containers = containers
        self._random = random.Random(12345)
        own = {**{kind: [kind] for kind in ["address", "u256", "i256"]}, **names}
        self._own_forms = {name: kind for kind, all_names in own.items() for name in all_names}

    def value(self, format: Any, deep: int) -> Any:
        if isinstance(format, str):
            return self._leaf(format)
        ((kind, inner),) = format.items()
        if kind == "TYPENAME":
            if deep == 0:
                raise NoValue
            if inner in self._own_forms:
                return self._own(self._own_forms[inner])
            return self._content(self._containers[inner], deep - 1)
        if kind == "OPTION":
            return self._or(None, lambda: {"some": self.value(inner, deep)})
        if kind == "SEQ":
            return self._or(b"" if inner == "U8" else [], lambda: self._list(inner, self._random.randrange(3), deep))
        if kind == "TUPLEARRAY":
            return self._list(inner["CONTENT"], inner["SIZE"], deep)
        if kind == "MAP":
            parts = [inner["KEY"], inner["VALUE"]]
            return self._or([], lambda: [self._row(parts, deep) for _ in range(self._random.randrange(3))])
        return self._row(inner, deep)

    def _own(self, kind: str) -> Any:
        data = self._random.randbytes(32)
        return f"0x{data.hex()}" if kind == "address" else int.from_bytes(data, "big", signed=kind == "i256")

    def _leaf(self, word: str) -> Any:
        if word in ("CHAR", "F32", "F64"):
            raise NoValue
        if word == "UNIT":
            return None
        if word == "BOOL":
            return self._random.random() < 0.5
        if word == "STR":
            return "".join(self._random.choices(TEXTS, k=2))
        if word == "BYTES":
            return self._random.randbytes(self._random.randrange(4))
        bits = int(word[1:])
        least = -(2 ** (bits - 1)) if word[0] == "I" else 0
        return self._random.choice(
            [0, 1, least, least + 2**bits - 1, self._random.randrange(least, least + 2**bits)]
        )

    def _list(self, format: Any, length: int, deep: int) -> Any:
        return self._random.randbytes(length) if format == "U8" else self._row([format] * length, deep)

    def _row(self, formats: list[Any], deep: int) -> list[Any]:
        return [self.value(format, deep) for format in formats]

    def _or(self, none: Any, make: Callable[[], Any]) -> Any:
        try:
            return none if self._random.random() < 0.25 else make()
        except NoValue:
            return none

    def _content(self, held: Any, deep: int) -> Any:
        if held in ("UNITSTRUCT", "UNIT"):
            return None
        ((kind, inner),) = held.items()
        if kind in ("NEWTYPESTRUCT", "NEWTYPE"):
            return self.value(inner, deep)
        if kind in ("TUPLESTRUCT", "TUPLE"):
            return self._row(inner, deep)
        if kind == "STRUCT":
            return {name: self.value(format, deep) for field in inner for name, format in field.items()}
        if not inner:
            raise NoValue
        ((name, payload),) = self._random.choice(list(inner.values())).items()
        return name if payload == "UNIT" else {name: self._content(payload, deep)}


def random_values(name: str, containers: dict[str, Any], plain_options: bool = False) -> list[str]:
    """Lines of Python: what random values of each container are decoded to, with its type."""
    names = NAMES.get(name, {})
    registry, values = Registry(containers, names=names), Values(containers, names)
    module = f"plain_{name}" if plain_options else name
    lines = [f"import {module}"]
    for container, own in _Identifiers().of_all(containers).items():
        for _ in range(EACH):
            try:
                data = registry.encode({"TYPENAME": container}, values.value({"TYPENAME": container}, 4))
            except NoValue:
                continue
            except TextError as fault:
                assert fault.reason == "RepeatedKey", fault
                continue
            back = registry.decode(Name[Any](container), data, plain_options=plain_options)
            assert registry.encode({"TYPENAME": container}, back) == data
            lines.append(f"value{len(lines)}: {module}.{own} = {ascii(back)}")
    return lines


def run(*words: str, folder: str = ".") -> subprocess.CompletedProcess[str]:
    environment = {
        **os.environ,
        "PYTHONPATH": os.pathsep.join([folder, str(HERE.parent)]),
        "MYPYPATH": str(HERE.parent),
    }
    return subprocess.run(words, cwd=folder, env=environment, capture_output=True, text=True, check=False)


def types(*words: str) -> subprocess.CompletedProcess[str]:
    return run(sys.executable, "-m", "bcs_proved.types", *words)


class Types(unittest.TestCase):
    def setUp(self) -> None:
        room = tempfile.TemporaryDirectory()
        self.addCleanup(room.cleanup)
        self.folder = room.name

    def write(self, name: str, text: str) -> None:
        (pathlib.Path(self.folder) / name).write_text(text, encoding="utf-8")

    def test_mypy(self) -> None:
        """It takes the modules and right values, and refuses the lines that are marked."""
        files = ["typed.py", "readme.py"]
        for name, path in REGISTRIES.items():
            words = [word for kind, own in NAMES.get(name, {}).items() for each in own for word in (f"--{kind}", each)]
            told = types(*words, str(path))
            self.assertEqual((told.returncode, told.stderr), (0, ""))
            self.write(f"{name}.py", told.stdout)
            self.assertEqual(run(sys.executable, f"{name}.py", folder=self.folder).stderr, "")
            lines = random_values(name, json.loads(path.read_text(encoding="utf-8")))
            self.assertGreater(len(lines), 20)
            self.write(f"values_of_{name}.py", "\n".join(lines) + "\n")
            self.write(f"plain_{name}.py", types("--plain-options", *words, str(path)).stdout)
            lines = random_values(name, json.loads(path.read_text(encoding="utf-8")), plain_options=True)
            self.write(f"values_of_plain_{name}.py", "\n".join(lines) + "\n")
            files += [f"{name}.py", f"values_of_{name}.py", f"plain_{name}.py", f"values_of_plain_{name}.py"]
        shutil.copy(HERE / "typed.py", self.folder)
        self.readme()
        options = ["--strict", "--no-error-summary", "--cache-dir", os.devnull]
        mypy = run("mypy", *options, *files, str(HERE.parent / "bcs_proved"), folder=self.folder)
        self.write("report", mypy.stdout + mypy.stderr)
        marked = run(sys.executable, str(ROOT / "tests/marked_errors.py"), "report", *files, folder=self.folder)
        self.assertEqual((marked.stdout, marked.stderr), ("36 wrong lines are refused, and no others\n", ""))
        ran = run(sys.executable, "typed.py", str(ROOT), folder=self.folder)
        self.assertEqual((ran.returncode, ran.stderr), (0, ""))

    def readme(self) -> None:
        """Writes the program that the README shows, after the commands before it, and runs it."""
        section = (HERE.parent / "README.md").read_text(encoding="utf-8").split("## Types of a registry's values")[1]
        commands, program = (section.split(f"```{kind}\n")[1].split("```")[0] for kind in ("sh", "python"))
        self.assertEqual(run("bash", "-e", "-c", commands, folder=self.folder).stderr, "")
        self.write("readme.py", program)
        ran = run(sys.executable, "readme.py", folder=self.folder)
        self.assertEqual((ran.stdout, ran.stderr), ("8\n", ""))

    def test_types_of_move(self) -> None:
        """Their modules are left out where the name is unique, and isn't one that no type may have."""
        for names in (MOVE_NAMES, dict(reversed(MOVE_NAMES.items()))):
            self.assertEqual(_Identifiers().of_all(names), MOVE_NAMES)
            self.assertEqual(_Identifiers().of_all(iter(names)), MOVE_NAMES)
        written = module_of(json.dumps(dict.fromkeys(MOVE_NAMES, "UNITSTRUCT")))
        self.assertIn(
            "# The container '0x1::coin::CoinStore<0x1::aptos_coin::AptosCoin>'.\nCoinStore_AptosCoin: ", written
        )
        self.assertIn('COIN_STORE_APTOS_COIN = Name["CoinStore_AptosCoin"](', written)

    def test_the_command(self) -> None:
        options = "[--plain-options] [--address NAME] [--u256 NAME] [--i256 NAME]"
        usage = f"Usage: python -m bcs_proved.types {options} REGISTRY > registry.py\n"
        absent = "names: the registry has no newtype of 32 bytes called 'B'\n"
        unknown = '{"A":{"NEWTYPESTRUCT":{"TYPENAME":"B"}}}'
        cases: list[tuple[int, str, list[str]]] = [
            (2, "refused: UnknownName at A: no container is called B\n", [unknown]),
            (2, "refused: NotJson: line 1, column 1: the document ends there; } is missing\n", ["{"]),
            (3, usage, []),
            (3, usage, ["a.json", "b.json"]),
            (3, usage, ["--other"]),
            (3, usage, ["--plain-options"]),
            (3, usage, ["a.json", "--plain-options"]),
            (3, usage, ["--address"]),
            (3, usage, ["--address", "a.json"]),
            (3, absent, ["--u256", "B", "{}"]),
            (4, "fault: [Errno 2] No such file or directory: '/none.json'\n", ["/none.json"]),
        ]
        for status, text, words in cases:
            told = types(*words)
            self.assertEqual((told.returncode, told.stdout, told.stderr), (status, "", text))
        self.assertIn("python -m bcs_proved.types", types("--help").stdout)

    def test_fields(self) -> None:
        """The keys of a struct's type are its fields, whatever they are called."""
        for path in REGISTRIES.values():
            containers = json.loads(path.read_text(encoding="utf-8"))
            self.write("module.py", module_of(path.read_bytes()))
            types = runpy.run_path(str(pathlib.Path(self.folder) / "module.py"))
            for name, own in _Identifiers().of_all(containers).items():
                if isinstance(containers[name], dict) and "STRUCT" in containers[name]:
                    fields = [field for fields in containers[name]["STRUCT"] for field in fields]
                    self.assertEqual(list(types[own].__annotations__), fields)

    def test_the_call(self) -> None:
        """The order of a registry's members doesn't matter, and what is none is refused."""
        text = REGISTRIES["aptos"].read_bytes()
        reverse = json.dumps(dict(reversed(json.loads(text).items())))
        self.assertEqual(module_of(reverse), module_of(text))
        self.assertEqual(types(reverse).stdout, module_of(text))
        with self.assertRaises(RegistryError):
            module_of('{"A":"UNIT"}')


if __name__ == "__main__":
    unittest.main()
