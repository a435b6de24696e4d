#!/usr/bin/env python3
"""Makes modules as the public APIs of Aptos and Sui return them, from the short declarations
in aptos.txt and sui.txt: make.py FOLDER. The modules of examples/move have fewer structs and functions:
make.py --examples FOLDER.

The shapes of the answers, and the structs of the two frameworks, were written from memory. None of them was fetched
from a chain. The lists of structs and functions aren't complete, bytecode is cut, and abilities are partly guessed:
`bcs from-move` doesn't read them. Least sure: `Ghost$supply` in 0x1::coin, the member `variantDeclarationOrder` of
Sui's enums, and how Aptos returns enums.
"""

import json
import pathlib
import re
import sys
from collections.abc import Iterator
from typing import Any, NamedTuple

FOLDER = pathlib.Path(__file__).resolve().parent


def modules_in(name: str) -> dict[str, str]:
    """The declarations of each module in a file."""
    text = (FOLDER / name).read_text(encoding="ascii")
    parts = (part.split("\n", 1) for part in text.split("\nmodule ")[1:])
    return {module: declared.strip() for module, declared in parts}


APTOS, SUI = modules_in("aptos.txt"), modules_in("sui.txt")
# of the lines of JSON
WIDTH = 118
# the declarations of each module that is in examples/move
OF_EXAMPLES = {
    "0x1::aptos_account": ["transfer"],
    "0x1::coin": ["Coin", "CoinDeposit", "CoinStore", "DepositEvent", "WithdrawEvent", "transfer"],
    "0x1::event": ["EventHandle"],
    "0x1::guid": ["GUID", "ID"],
    "0x2::balance": ["Balance"],
    "0x2::coin": ["Coin"],
    "0x2::object": ["ID", "UID"],
    "0x2::transfer": ["public_transfer"],
    "0x3::sui_system": ["request_add_stake"],
    "0x3::validator": ["StakingRequestEvent"],
}


class Declared(NamedTuple):
    """A struct, an event, an enum or a function: what is in its brackets, and behind it."""

    kind: str
    name: str
    generics: list[str]
    words: list[str]
    body: str
    result: str


STRUCT = re.compile(r"(struct|event|enum) ([\w$]+)(?:<([^>]*)>)?(?: has ([\w, ]+))? \{(.*)\}")
FUNCTION = re.compile(r"fun (\w+)(?:<([^>]*)>)?\((.*)\)(?:: (\S+))?(?: (entry|view))?")
PARAMETER = re.compile(r"T\d+")


def split(text: str, comma: str = ",") -> list[str]:
    """The parts of a list, whose own lists are in angle brackets or between bars."""
    parts: list[str] = []
    depth, is_within, part = 0, False, ""
    for char in text:
        is_within ^= char == "|"
        depth += (char == "<") - (char == ">")
        if char == comma and depth == 0 and not is_within:
            parts, part = [*parts, part.strip()], ""
        else:
            part += char
    return [*parts, part.strip()] if part.strip() else parts


def fields_of(text: str) -> list[tuple[str, str]]:
    fields = (part.split(":", 1) for part in split(text))
    return [(name.strip(), kind.strip()) for name, kind in fields]


def declarations(text: str) -> Iterator[Declared]:
    for line in text.strip().splitlines():
        shape = STRUCT.fullmatch(line)
        if shape:
            kind, name, generics, abilities, body = shape.groups("")
            yield Declared(kind, name, split(generics), split(abilities), body.strip(), "")
            continue
        shape = FUNCTION.fullmatch(line)
        assert shape, line
        name, generics, body, result, word = shape.groups("")
        yield Declared("fun", name, split(generics), [word], body, result)


def aptos(module: str, text: str) -> dict[str, Any]:
    """The answer of /v1/accounts/ADDRESS/module/NAME."""
    address, name = module.split("::")
    structs: list[Any] = []
    functions: list[Any] = []
    for it in declarations(text):
        generics: list[dict[str, Any]] = [{"constraints": []} for _ in it.generics]
        if it.kind == "fun":
            functions.append({
                "name": it.name, "visibility": "public",
                "is_entry": it.words == ["entry"], "is_view": it.words == ["view"],
                "generic_type_params": generics, "params": split(it.body), "return": [it.result] if it.result else [],
            })  # fmt: skip
        else:
            structs.append({
                "name": it.name, "is_native": False, "is_event": it.kind == "event", "abilities": it.words,
                "generic_type_params": generics, "fields": [{"name": n, "type": t} for n, t in fields_of(it.body)],
            })  # fmt: skip
    abi = {"address": address.lower(), "name": name, "friends": [], "exposed_functions": functions, "structs": structs}
    return {"bytecode": "0xa11ceb0b0600", "abi": abi}


def sui_type(text: str) -> Any:
    for start, kind in [("&mut ", "MutableReference"), ("&", "Reference")]:
        if text.startswith(start):
            return {kind: sui_type(text.removeprefix(start))}
    if text.startswith("vector<"):
        return {"Vector": sui_type(text[7:-1])}
    if PARAMETER.fullmatch(text):
        return {"TypeParameter": int(text[1:])}
    if "::" not in text:
        return text.title()
    head, _, inner = text.partition("<")
    address, module, name = head.split("::")
    arguments = [sui_type(part) for part in split(inner[:-1])]
    return {"Struct": {"address": address, "module": module, "name": name, "typeArguments": arguments}}


def sui_fields(text: str) -> list[dict[str, Any]]:
    return [{"name": n, "type": sui_type(t)} for n, t in fields_of(text)]


def sui(module: str, text: str) -> dict[str, Any]:
    """The answer of sui_getNormalizedMoveModule, without what JSON-RPC has around it."""
    address, name = module.split("::")
    structs: dict[str, Any] = {}
    enums: dict[str, Any] = {}
    functions: dict[str, Any] = {}
    for it in declarations(text):
        generics: list[dict[str, Any]] = [
            {"constraints": {"abilities": []}, "isPhantom": word.startswith("phantom ")} for word in it.generics
        ]
        abilities = {"abilities": [word.title() for word in it.words]}
        if it.kind == "fun":
            functions[it.name] = {
                "visibility": "Public", "isEntry": it.words == ["entry"],
                "typeParameters": [{"abilities": []} for _ in generics],
                "parameters": [sui_type(part) for part in split(it.body)],
                "return": [sui_type(it.result)] if it.result else [],
            }  # fmt: skip
        elif it.kind == "struct":
            structs[it.name] = {"abilities": abilities, "typeParameters": generics, "fields": sui_fields(it.body)}
        else:
            parts = (part.partition(" {") for part in split(it.body, ";"))
            variants = {variant: sui_fields(inner.strip(" }")) for variant, _, inner in parts}
            enums[it.name] = {
                "abilities": abilities, "typeParameters": generics, "variants": dict(sorted(variants.items())),
                "variantDeclarationOrder": list(variants),
            }  # fmt: skip
    found = {"fileFormatVersion": 6, "address": address, "name": name, "friends": [], "structs": structs}
    return {**found, **({"enums": enums} if enums else {}), "exposedFunctions": functions}


def sui_package(address: str) -> dict[str, Any]:
    """The answer of sui_getNormalizedMoveModulesByPackage."""
    modules = {m.split("::")[1]: sui(m, text) for m, text in SUI.items() if m.startswith(f"{address}::")}
    return answer_of_sui(modules)


def aptos_samples() -> list[Any]:
    return [aptos(module, text) for module, text in APTOS.items()]


def sui_samples() -> list[Any]:
    return [sui_package(address) for address in ("0x1", "0x2", "0x3", "0xcafe")]


def in_example(module: str, declared: dict[str, str]) -> str:
    """The declarations of a module that are in examples/move."""
    lines = declared[module].splitlines()
    return "\n".join(line for line in lines if re.split(r"\W", line)[1] in OF_EXAMPLES[module])


def answer_of_sui(result: Any) -> dict[str, Any]:
    return {"jsonrpc": "2.0", "result": result, "id": 1}


def examples() -> dict[str, Any]:
    """The answers in examples/move: modules of an account, and of Sui a package and two modules."""
    of_sui = {it: sui(it, in_example(it, SUI)) for it in SUI if it in OF_EXAMPLES}
    package = {it.split("::")[1]: module for it, module in of_sui.items() if it.startswith("0x2::")}
    modules = [module for it, module in of_sui.items() if it.startswith("0x3::")]
    return {
        "aptos_modules": [aptos(it, in_example(it, APTOS)) for it in APTOS if it in OF_EXAMPLES],
        "sui_modules": [answer_of_sui(package), *map(answer_of_sui, modules)],
    }


def laid_out(thing: Any, indent: str = "") -> str:
    """JSON, in which objects and arrays that fit are on one line."""
    line = json.dumps(thing)
    if len(indent + line) <= WIDTH or not isinstance(thing, (dict, list)):
        return line
    inner = f"{indent}  "
    if isinstance(thing, dict):
        parts = [f"{json.dumps(name)}: {laid_out(part, inner)}" for name, part in thing.items()]
    else:
        parts = [laid_out(part, inner) for part in thing]
    return f"{line[0]}\n{inner}" + f",\n{inner}".join(parts) + f"\n{indent}{line[-1]}"


def main(is_example: bool, folder: pathlib.Path) -> None:
    folder.mkdir(parents=True, exist_ok=True)
    answers = examples() if is_example else {"aptos": aptos_samples(), "sui": sui_samples()}
    for name, answer in answers.items():
        (folder / f"{name}.json").write_text(f"{laid_out(answer)}\n", encoding="ascii")


if __name__ == "__main__":
    main(sys.argv[1] == "--examples", pathlib.Path(sys.argv[-1]))
