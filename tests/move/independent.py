"""Reads values of Move types straight from the JSON of modules, by the rules of BCS and of Move: without a registry.

It also makes the bytes of random values. A value is what `bcs decode` prints, parsed.
"""

import random
import re
from typing import Any, NamedTuple

PARAMETER = re.compile(r"T\d+")
STRINGS = ["0x1::string::String", "0x1::ascii::String"]
OPTION = "0x1::option::Option"


class Type(NamedTuple):
    """What is before `<`, with a short address, and the arguments."""

    head: str
    arguments: "list[Type]"


Modules = dict[str, dict[str, Any]]


def short(head: str) -> str:
    address, module, name = head.split("::")
    return f"{int(address, 16):#x}::{module}::{name}"


def modules_of(answers: list[Any]) -> Modules:
    """The structs and enums of modules, by names as 0x1::coin."""
    found: Modules = {}
    for answer in answers:
        thing = answer.get("result", answer)
        many = [thing.get("abi", thing)] if "abi" in thing or "structs" in thing else thing.values()
        for module in many:
            structs = module["structs"]
            by_name = structs if isinstance(structs, dict) else {struct["name"]: struct for struct in structs}
            found[f"{int(module['address'], 16):#x}::{module['name']}"] = {**by_name, **module.get("enums", {})}
    return found


def parsed(text: str) -> Type:
    head, _, rest = text.partition("<")
    inner = rest.rpartition(">")[0]
    parts, depth, start = [], 0, 0
    for index, char in enumerate(f"{inner},"):
        depth += (char == "<") - (char == ">")
        if char == "," and depth == 0:
            parts.append(inner[start:index].strip())
            start = index + 1
    return Type(short(head) if "::" in head else head, [parsed(part) for part in parts if part])


def of_sui(thing: Any) -> Type:
    if isinstance(thing, str):
        return Type(thing.lower(), [])
    ((kind, inner),) = thing.items()
    if kind == "TypeParameter":
        return Type(f"T{inner}", [])
    if kind == "Vector":
        return Type("vector", [of_sui(inner)])
    head = f"{inner['address']}::{inner['module']}::{inner['name']}"
    return Type(short(head), [of_sui(part) for part in inner["typeArguments"]])


def closed(kind: Type, arguments: list[Type]) -> Type:
    if PARAMETER.fullmatch(kind.head):
        return arguments[int(kind.head[1:])]
    return Type(kind.head, [closed(part, arguments) for part in kind.arguments])


def declared_in(modules: Modules, head: str) -> Any:
    module, _, name = head.rpartition("::")
    return modules[module][name]


def field_types(fields: list[Any], kind: Type) -> list[tuple[str, Type]]:
    """The names and types of fields. A type is a string on Aptos, and an object or upper case on Sui."""
    found = []
    for field in fields:
        of = field["type"]
        is_sui = not isinstance(of, str) or (of[0].isupper() and not PARAMETER.fullmatch(of))
        found.append((field["name"], closed(of_sui(of) if is_sui else parsed(of), kind.arguments)))
    return found


class Reader:
    """Reads a value. Raises ValueError for bytes that aren't one."""

    def __init__(self, modules: Modules, content: bytes) -> None:
        self.modules, self.content, self.place = modules, content, 0

    def whole(self, kind: Type) -> Any:
        value = self.read(kind)
        if self.place != len(self.content):
            raise ValueError("bytes are left")
        return value

    def take(self, count: int) -> bytes:
        self.place += count
        if self.place > len(self.content):
            raise ValueError("the bytes end")
        return self.content[self.place - count : self.place]

    def number(self) -> int:
        number = 0
        for shift in range(0, 35, 7):
            byte = self.take(1)[0]
            number |= (byte & 127) << shift
            if byte < 128:
                if number >= 1 << 31 or (shift and not byte):
                    break
                return number
        raise ValueError("no number")

    def read(self, kind: Type) -> Any:
        head = kind.head
        if head == "bool":
            byte = self.take(1)[0]
            if byte > 1:
                raise ValueError("no bool")
            return byte == 1
        if head in ("address", "u256", "i256"):
            return self.take(32).hex()
        if head[0] in "ui" and head[1:].isdigit():
            bits = int(head[1:])
            number = int.from_bytes(self.take(bits // 8), "little", signed=head[0] == "i")
            return str(number) if bits > 32 else number
        if head == "vector":
            count = self.number()
            if kind.arguments[0].head == "u8":
                return self.take(count).hex()
            return [self.read(kind.arguments[0]) for _ in range(count)]
        if head in STRINGS:
            return self.take(self.number()).decode()
        if head == OPTION:
            count = self.number()
            if count > 1:
                raise ValueError("no option")
            return {"some": self.read(kind.arguments[0])} if count else None
        return self.read_declared(kind)

    def read_declared(self, kind: Type) -> Any:
        declared = declared_in(self.modules, kind.head)
        if "variants" not in declared:
            return self.fields(declared["fields"], kind)
        names = declared["variantDeclarationOrder"]
        number = self.number()
        if number >= len(names):
            raise ValueError("no variant")
        fields = declared["variants"][names[number]]
        return {names[number]: self.fields(fields, kind)} if fields else names[number]

    def fields(self, fields: list[Any], kind: Type) -> Any:
        return {name: self.read(of) for name, of in field_types(fields, kind)}


def uleb(number: int) -> bytes:
    return bytes([number]) if number < 128 else bytes([number & 127 | 128]) + uleb(number >> 7)


def random_bytes(rng: random.Random, modules: Modules, kind: Type, depth: int = 0) -> bytes:
    """The bytes of a random value."""
    head = kind.head
    many = 200 if depth < 2 and rng.random() < 0.02 else 2
    count = rng.choice([0, 1, 1, 2, 3, many]) if depth < 8 else 0
    if head == "bool":
        return bytes([rng.randrange(2)])
    if "::" not in head and head != "vector":
        width = 32 if head == "address" else int(head[1:]) // 8
        return rng.choice([rng.randbytes(width), bytes(width), b"\xff" * width])
    if head == "vector":
        values = (random_bytes(rng, modules, kind.arguments[0], depth + 1) for _ in range(count))
        return uleb(count) + b"".join(values)
    if head in STRINGS:
        signs = 'ab"\\\n~' if head == STRINGS[1] else 'aé漢😀\0"'
        text = "".join(rng.choice(signs) for _ in range(count)).encode()
        return uleb(len(text)) + text
    if head == OPTION:
        return b"\1" + random_bytes(rng, modules, kind.arguments[0], depth + 1) if count else b"\0"
    declared, start = declared_in(modules, head), b""
    fields = declared.get("fields")
    if fields is None:
        number = rng.randrange(len(declared["variants"]))
        start, fields = uleb(number), declared["variants"][declared["variantDeclarationOrder"][number]]
    return start + b"".join(random_bytes(rng, modules, of, depth + 1) for _, of in field_types(fields, kind))


def spoiled(rng: random.Random, content: bytes) -> bytes:
    """The bytes with one or two random changes."""
    found = bytearray(content)
    for _ in range(rng.choice([1, 1, 2])):
        what, place = rng.randrange(4), rng.randrange(len(found)) if found else 0
        if what == 0 and found:
            found[place] ^= 1 << rng.randrange(8)
        elif what == 1:
            del found[place : place + rng.randrange(1, 3)]
        else:
            found[place:place] = rng.randbytes(1)
    return bytes(found)
