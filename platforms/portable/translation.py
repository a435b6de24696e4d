"""Translates the proved WebAssembly modules into C with wasm2c, and joins the parts of bcs.c and bcs_library.c."""

from __future__ import annotations

import pathlib
import re
import subprocess
import sys
import tempfile

HERE = pathlib.Path(__file__).resolve().parent
C = HERE.parent.parent / "bindings/c"
# The version of Debian 12. The edits below don't fit the output of another one.
WASM2C = "1.0.32"

NOTICE = """\
/* {title}

   Made by tools/packages.py from the proved code, as WebAssembly, which wasm2c {wasm2c} of wabt translated into C.
   Don't edit it.

   SPDX-License-Identifier: ({licence}) AND Apache-2.0
   What wasm2c writes around the translated code is copyrighted by the WebAssembly Community Group participants, under
   the Apache License 2.0. All else is under {licence}, as you choose. */
"""
# The translated code contains functions that it doesn't use, such as those on numbers of C's <math.h>.
QUIET = """\
#if defined(__clang__)
#pragma clang diagnostic push
#pragma clang diagnostic ignored "-Weverything"
#elif defined(__GNUC__)
#pragma GCC diagnostic push
#pragma GCC diagnostic ignored "-Wunused-function"
#pragma GCC diagnostic ignored "-Wunused-variable"
#pragma GCC diagnostic ignored "-Wunused-but-set-variable"
#pragma GCC diagnostic ignored "-Wunused-parameter"
#pragma GCC diagnostic ignored "-Wunused-label"
#pragma GCC diagnostic ignored "-Wunused-value"
#endif
"""
QUIET_ENDS = """\
#if defined(__clang__)
#pragma clang diagnostic pop
#elif defined(__GNUC__)
#pragma GCC diagnostic pop
#endif
"""

# What is cut, or isn't in runtime.h, so the code must not use it.
LEFT_OUT = r"funcref|externref|wasm_rt_register|= CALL_INDIRECT\(|= FM(?:IN|AX)\(|wasm_(?!rt|asm|elem)\w+\("


def edited(text: str, old: str, new: str, count: int = 1) -> str:
    """The text with a pattern replaced, which must occur COUNT times, or at least once if COUNT is 0."""
    text, found = re.subn(old, new, text, flags=re.M | re.S)
    if found != count and (count or not found):
        sys.exit(f"translation: {old!r} occurs {found} times in the output of wasm2c")
    return text


def require_wasm2c() -> None:
    try:
        told = subprocess.run(["wasm2c", "--version"], capture_output=True, text=True, check=True).stdout.strip()
    except FileNotFoundError:
        sys.exit("translation: there is no wasm2c; on Debian 12: apt-get install wabt")
    if told != WASM2C:
        sys.exit(f"translation: wasm2c {WASM2C} is needed, since others write different C, and this is {told}")


def translated(module: pathlib.Path) -> str:
    """The module in C, with only static functions, over the definitions in runtime.h."""
    require_wasm2c()
    with tempfile.TemporaryDirectory() as folder:
        written = pathlib.Path(folder) / "bcs.c"
        subprocess.run(["wasm2c", str(module), "-n", "bcs", "-o", str(written)], check=True)
        header, code = written.with_suffix(".h").read_text(), written.read_text()
    # The header's own lines, without its include guard.
    header = edited(header, r"\A.*?#ifndef WASM_RT_CORE_TYPES_DEFINED", "#ifndef WASM_RT_CORE_TYPES_DEFINED")
    header = edited(header, r'#ifdef __cplusplus\n(extern "C" \{|\})\n#endif\n', "", 2)
    header = edited(header, r"#endif  /\* BCS_H_GENERATED_ \*/\n", "")
    header = edited(header, r"^(typedef struct Z_bcs_instance_t \{\n)", r"\1  uintptr_t stack_end;\n")
    code = edited(code, r'\A.*?#include "bcs.h"\n', "")
    code = edited(code, r"#if WASM_RT_USE_STACK_DEPTH_COUNT\n.*?#endif\n", "")
    # The proved code rounds no numbers, so it needs nothing from libm.
    code = edited(code, r"^static float quiet_nanf\(.*?^(?=static inline void memory_fill)", "")
    # The module has no tables, and only tables need types of functions.
    code = edited(code, r"^typedef struct \{\n  uint32_t func_type_index;.*?^(?=static bool s_module_initialized)", "")
    code = edited(code, r"^static bool s_module_initialized.*?^(?=static \w+ w2c_)", "")
    code = edited(code, r"^void Z_bcs_init_module\(void\) \{.*?^\}\n", "")
    code = edited(code, r"^  assert\(.*?\);\n", "", 2)
    header = edited(header, r"^void Z_bcs_init_module\(void\);\n", "")
    outside = r"^(void|u32|u64|wasm_rt_memory_t\*) (Z_\w+)\("
    whole = edited(header, outside, r"static \1 \2(", 0) + edited(code, outside, r"static \1 \2(", 0)
    if left := re.findall(rf"^.*(?:{LEFT_OUT}).*", code, flags=re.M):
        sys.exit(f"translation: the output of wasm2c uses what isn't there: {left[:3]}")
    return QUIET + whole + QUIET_ENDS


def own(path: pathlib.Path) -> str:
    return path.read_text(encoding="utf-8")


def notice(title: str, licence: str) -> str:
    return NOTICE.format(title=title, wasm2c=WASM2C, licence=licence)


def program(module: pathlib.Path, licence: str) -> str:
    """bcs.c, from bcs_program.wasm."""
    title = "bcs: canonical bytes (BCS) by a registry of formats, proved: the program, in one file."
    features = "#define _GNU_SOURCE\n#define _DARWIN_C_SOURCE\n#define _FILE_OFFSET_BITS 64\n"
    descriptor = own(HERE.parent / "hosts/descriptor.h")
    parts = [own(HERE / "runtime.h"), translated(module), descriptor, own(HERE / "program.c")]
    return "\n".join([notice(title, licence), features, *parts])


def static_calls(proved: str) -> str:
    """proved.h with static calls."""
    proved = edited(proved, r"\A.*?#include \"include/bcs.h\"\n", "")
    proved = edited(proved, r"^#endif\n\Z", "")
    return edited(proved, r"^(bcs_answer|void) (bcs_c_\w+)\(", r"static \1 \2(", 3)


def layer() -> str:
    """library.c with static calls. Its weak references to the system's functions become strong ones, so that static
    linking finds those."""
    text = edited(own(C / "library.c"), r'^#include "proved.h"\n', "")
    gettid = "#include <sys/syscall.h>\n#define CALL_GETTID SYS_gettid\n"
    text = edited(
        text, r"^#ifdef __x86_64__\n#define CALL_GETTID 186\n#else\n#define CALL_GETTID 178\n#endif\n", gettid
    )
    text = edited(text, r"^IF_THERE (const char \*gnu_get_libc_version)", r"__attribute__((weak)) \1")
    names = "|".join(re.findall(r"^IF_THERE .*?(\w+)\(", text, flags=re.M))
    text = edited(text, rf"\b(?:{names}) (?:== NULL \|\||!= NULL &&)\s+", "", 0)
    text = edited(text, r"^#define IF_THERE __attribute__\(\(weak\)\)$", "#define IF_THERE")
    return edited(text, r"^(struct tried rattle_alloc|void rattle_dealloc)\(", r"static \1(", 2)


def library(module: pathlib.Path, licence: str) -> str:
    """bcs_library.c, from the library's module."""
    title = "bcs: canonical bytes (BCS) by a registry of formats, proved: the library of bcs.h, in one file."
    features = "#define _GNU_SOURCE\n#define _DARWIN_C_SOURCE\n"
    runtime = own(HERE / "runtime.h")
    parts = [
        features,
        '#include "bcs.h"\n',
        runtime,
        translated(module),
        static_calls(own(C / "proved.h")),
        layer(),
        own(HERE / "box.c"),
    ]
    return "\n".join([notice(title, licence), *parts])
