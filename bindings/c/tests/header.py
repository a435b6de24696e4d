"""Compares the headers with the proved crates' sources: in proved.h the exports of `bcs_c` and their parameters, and in
include/bcs.h the fields of a question and of an answer, and the numbers of statuses, faults, forms, notations and
calls. The numbers of calls are compared with the code and with the definitions that contracts use. In library.c, each
export has a caller, and each call a rule.

layout.c checks the offsets of the fields. The compiler checks that library.c defines functions as bcs.h declares them,
and test.sh that it defines all of them.

    python3 bindings/c/tests/header.py [CRATES]     CRATES: the folder with `bcs_c` and `bcs_calls` (default: crates)
"""

import pathlib
import re
import sys
from typing import NamedTuple

HERE = pathlib.Path(__file__).resolve().parent
ROOT = HERE.parent.parent.parent

# How a number's type is written in C.
NUMBERS = {"u32": "uint32_t", "u64": "uint64_t", "usize": "size_t"}
# Structs that calls receive.
STRUCTS = {"&Question": "bcs_question"}
# What a call gives back.
RESULTS = {"Answer": "bcs_answer", "": "void"}
# The header says what the crate's pointer in a handle points to.
NAMES_IN_HANDLE = {"void *pointer": "void *registry"}
# With what the header's names of an enum of the crate begin.
FRONTS = {
    "Status": "BCS_",
    "RegistryFault": "BCS_REGISTRY_",
    "GrowthFault": "BCS_GROWTH_",
    "JsonFault": "BCS_TEXT_",
    "Reason": "BCS_STOP_",
    "MoveRefusalName": "BCS_MOVE_",
}
# Faults that aren't of one of these enums.
OTHER_FAULTS = {
    "ShownTooNested": "BCS_SHOWN_TOO_NESTED",
    "BadPath": "BCS_PATH_BAD_PATH",
    "NoContent": "BCS_PATH_NO_CONTENT",
    "OtherFunction": "BCS_PATH_OTHER_FUNCTION",
    "ExampleUnknownVariant": "BCS_EXAMPLE_UNKNOWN_VARIANT",
    "ExampleNoValue": "BCS_EXAMPLE_NO_VALUE",
    "ExampleTooManyNodes": "BCS_EXAMPLE_TOO_MANY_NODES",
    "ExampleTooNested": "BCS_EXAMPLE_TOO_NESTED",
}
FORMS = {"Form": "BCS_"}
NOTATION = re.compile(
    r"\b(\d+) (?:if \w+\(text\) )?=> (?:match \w+\(alloc, text\) \{\s*Ok\(_\) => )?Ok\(Some\(PartName::(\w+)"
)
# The notation of paths, which isn't one of `PartName`.
STEPS = re.compile(r"\bconst (STEPS): u32 = (\d+);")
# What is added to a form.
NOTES = re.compile(r"\bconst (NOTES): u32 = (\d+);")
# A call's number in the code, and in the definitions.
CALL = re.compile(r"\b(\d+) => Some\((?:Value|Plain)Call::(\w+)\)")
SHOW = re.compile(r"\bconst (SHOW): u32 = (\d+);")
DEFINED_CALL = re.compile(r"^(?:value|plain)_call_number (\w+) = (\d+)$", re.MULTILINE)
DEFINED_SHOW = re.compile(r"^(show)_number = (\d+)$", re.MULTILINE)
# A row of library.c's table.
RULE = re.compile(r"^    \[(BCS_\w+)\] = \{", re.MULTILINE)


class Interface(NamedTuple):
    """What one side says, with types as C has them. An export has first what it gives back."""

    exports: dict[str, list[str]]
    structs: dict[str, list[str]]
    statuses: dict[str, int]
    faults: dict[str, int]
    forms: dict[str, int]
    notations: dict[str, int]
    calls: dict[str, int]
    defined_calls: dict[str, int]


def declared(name: str, written: str) -> list[str]:
    """A parameter or a field of the crate as C has it: a slice is a pointer and a length."""
    if written in ("&[u8]", "&'a [u8]"):
        return [f"const uint8_t *{name}", f"size_t {name}_length"]
    if written == "&mut [u8]":
        return [f"uint8_t *{name}", f"size_t {name}_length"]
    if written in STRUCTS:
        return [f"const {STRUCTS[written]} *{name}"]
    if written == "&mut Handle":
        return [f"bcs_c_handle *{name}"]
    if written == "*mut u8":
        return [f"void *{name}"]
    if written == "Global":
        return []
    return [f"{NUMBERS[written]} {name}"]


def declared_all(parts: str) -> list[str]:
    pairs = [part.split(":", 1) for part in parts.split(",") if part.strip()]
    return [line for name, written in pairs for line in declared(name.strip(), written.strip())]


def in_capitals(name: str) -> str:
    return re.sub(r"(?<=[a-z\d])([A-Z])", r"_\1", name).upper()


def numbers(code: str, fronts: dict[str, str]) -> dict[str, int]:
    """The arms `Enum::Variant => 7`. Want of memory is a status and no fault."""
    found = {}
    for enum, front in fronts.items():
        for variant, number in re.findall(rf"\b{enum}::(\w+) => (\d+)", code):
            if variant != "OutOfMemory":
                found[front + in_capitals(variant)] = int(number)
    return found


def forms_of(code: str) -> dict[str, int]:
    """The arms `7 => Form::Variant`. Any other number is as the first form, which need not have an arm."""
    found = {
        "BCS_" + in_capitals(variant): int(number) for number, variant in re.findall(r"(\d+) => Form::(\w+)", code)
    }
    for variant in re.findall(r"\b_ => Form::(\w+)", code):
        found.setdefault("BCS_" + in_capitals(variant), 0)
    return found


def structs_of(code: str) -> dict[str, list[str]]:
    """The fields that C sees, which a ghost isn't."""
    structs = re.findall(r"#\[repr\(C\)\]\s*(?:#\[[^\]]*\]\s*)*pub struct (\w+)(?:<'a>)? \{(.*?)\n\}", code, re.DOTALL)
    fields = {name: re.sub(r"(pub )?ghost .*|\bpub ", "", body) for name, body in structs}
    return {name_of_struct(name): declared_all(body) for name, body in fields.items()}


def name_of_struct(name: str) -> str:
    """Only the proved handle isn't in the public header."""
    return f"bcs_{'c_' if name == 'Handle' else ''}{in_capitals(name).lower()}"


def calls_of(code: str, call: re.Pattern[str], show: re.Pattern[str]) -> dict[str, int]:
    """The numbers of calls by the header's names. A pattern finds a name and a number, in either order."""
    pairs = (sorted(found, key=str.isdigit) for found in call.findall(code) + show.findall(code))
    return {"BCS_" + in_capitals(name): int(number) for name, number in pairs}


def code_of_crate(folder: pathlib.Path) -> str:
    files = sorted((folder / "src").glob("**/*.rt"))
    if not files:
        sys.exit(f"header: FAILED: no sources in {folder}/src")
    return "\n".join(re.sub(r"//.*", "", file.read_text(encoding="utf-8")) for file in files)


def of_crates(folder: pathlib.Path) -> Interface:
    code = code_of_crate(folder / "bcs_c") + code_of_crate(folder / "bcs_calls")
    definitions = (folder / "bcs_calls/specs/Calls.antt").read_text(encoding="utf-8")
    signature = r'#\[unsafe\(no_mangle\)\]\s*pub extern "C" fn (\w+)\(([^)]*)\)(?: -> (\w+))?\s*ensures\b'
    exported = re.findall(signature, code)
    exports = len(re.findall(r"no_mangle|export_name", code))
    if len(exported) != exports:
        sys.exit(f"header: FAILED: of {exports} exports {len(exported)} are of the one form that is known")
    structs = structs_of(code)
    structs["bcs_c_handle"] = [NAMES_IN_HANDLE[field] for field in structs["bcs_c_handle"]]
    others = {OTHER_FAULTS[name]: int(number) for name, number in re.findall(r"\bFault::(\w+) => (\d+)", code)}
    return Interface(
        exports={name: [RESULTS[result], *declared_all(parameters)] for name, parameters, result in exported},
        structs=structs,
        statuses=numbers(code, {"Status": FRONTS["Status"]}),
        faults=numbers(code, {enum: front for enum, front in FRONTS.items() if enum != "Status"}) | others,
        forms=forms_of(code) | {"BCS_" + name: int(number) for name, number in NOTES.findall(code)},
        notations={"BCS_" + in_capitals(name): int(number) for number, name in NOTATION.findall(code)}
        | {"BCS_" + name: int(number) for name, number in STEPS.findall(code)},
        calls=calls_of(code, CALL, SHOW),
        defined_calls=calls_of(definitions, DEFINED_CALL, DEFINED_SHOW),
    )


def one_blank(text: str) -> str:
    return " ".join(text.split())


def enum_of(header: str, name: str) -> dict[str, int]:
    body = re.search(rf"enum {name} \{{(.*?)\}};", header, re.DOTALL)
    assert body, f"enum {name}"
    return {constant: int(number) for constant, number in re.findall(r"(\w+) = (\d+)", body[1])}


def code_of(file: pathlib.Path) -> str:
    return re.sub(r"/\*.*?\*/", "", file.read_text(encoding="utf-8"), flags=re.DOTALL)


def structs_declared(header: str) -> dict[str, list[str]]:
    structs = re.findall(r"typedef struct \w+ \{(.*?)\} (\w+);", header, re.DOTALL)
    return {name: [one_blank(field) for field in body.split(";") if field.strip()] for body, name in structs}


def of_headers(proved: pathlib.Path, public: pathlib.Path) -> Interface:
    exports = re.findall(r"\b(bcs_answer|void) (bcs_\w+)\((.*?)\);", code_of(proved), re.DOTALL)
    header = code_of(public)
    faults = enum_of(header, "bcs_fault")
    assert faults.pop("BCS_FAULT_NONE") == 0
    statuses = enum_of(header, "bcs_status")
    # Only library.c knows the stack, and no proved call returns this.
    assert statuses.pop("BCS_STACK") not in statuses.values()
    return Interface(
        exports={name: [result, *map(one_blank, parameters.split(","))] for result, name, parameters in exports},
        structs=structs_declared(code_of(proved)) | structs_declared(header),
        statuses=statuses,
        faults=faults,
        forms=enum_of(header, "bcs_form"),
        notations=enum_of(header, "bcs_notation"),
        calls=enum_of(header, "bcs_call"),
        defined_calls=enum_of(header, "bcs_call"),
    )


def differences(header: Interface, crate: Interface) -> list[str]:
    found = []
    for part in Interface._fields:
        ours, proved = getattr(header, part), getattr(crate, part)
        for name in sorted(ours.keys() | proved.keys()):
            if ours.get(name) != proved.get(name):
                found.append(f"{part}: {name}: the header has {ours.get(name)}, and the crate {proved.get(name)}")
    return found


def missing_in_library(crates: Interface) -> list[str]:
    """Exports that library.c doesn't call, and calls without a rule, or with two."""
    library = code_of(HERE.parent / "library.c")
    uncalled = [name for name in crates.exports if not re.search(rf"\b{name}\(", library)]
    found = [f"exports: {name}: library.c doesn't call it" for name in uncalled]
    rules = RULE.findall(library)
    return found + [
        f"calls: {name}: library.c has {rules.count(name)} rules for it, and not 1"
        for name in sorted({*crates.calls, *rules})
        if rules.count(name) != 1 or name not in crates.calls
    ]


def main(words: list[str]) -> int:
    crates = of_crates(pathlib.Path(words[0]) if words else ROOT / "crates")
    header = of_headers(HERE.parent / "proved.h", HERE.parent / "include/bcs.h")
    found = differences(header, crates) + missing_in_library(crates)
    for difference in found:
        print(f"header: FAILED: {difference}")
    if not found:
        told = ", ".join(f"{len(getattr(header, part))} {part.replace('_', ' ')}" for part in Interface._fields)
        print(f"header: {told} are as the proved crates have them")
    return 1 if found else 0


if __name__ == "__main__":
    sys.exit(main(sys.argv[1:]))
