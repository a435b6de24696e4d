"""What module.py changes between clang's steps: names, or instructions for others of the same meaning."""

import re

SWAP = re.compile(r"^  (%\S+) = (?:tail )?call [^@]*@llvm\.bswap\.i64\(i64 (\S+)\).*\n", re.M)
TURNED = ", ".join(f"i32 {i}" for i in [7, 6, 5, 4, 3, 2, 1, 0] * 2)

HEAD = re.compile(r"^\t\.functype\t\S+ \((.*?)\) -> \(.*\)\n(?:\t\.local  \t(.*)\n)?", re.M)
PART = re.compile(r"^\tv128\.(load|store)(8|16|32|64)_(splat|zero|lane)\t([^,\n]*)(?:, (\d+))?\n", re.M)
# By the bits of a part: how it is read alone, written alone, and the vector's name.
ALONE = {
    8: ("i32.load8_u", "i32.store8", "i8x16"),
    16: ("i32.load16_u", "i32.store16", "i16x8"),
    32: ("i32.load", "i32.store", "i32x4"),
    64: ("i64.load", "i64.store", "i64x2"),
}


def with_plain_names(code: str) -> str:
    """The LLVM module with names that an assembler accepts, in place of those between quotation marks."""
    names: dict[str, str] = {}
    return re.sub(r'@"[^"]*"', lambda it: names.setdefault(it[0], f"@plain.{len(names)}"), code)


def by_shuffles(code: str) -> str:
    """The LLVM module with the bytes of a number reversed by one shuffle, and not by some thirty shifts."""

    def shuffle(found: re.Match[str]) -> str:
        result, number = found.groups()
        step = f"%turn{found.start()}"
        return (
            f"  {step}.a = insertelement <2 x i64> poison, i64 {number}, i64 0\n"
            f"  {step}.b = bitcast <2 x i64> {step}.a to <16 x i8>\n"
            f"  {step}.c = shufflevector <16 x i8> {step}.b, <16 x i8> poison, <16 x i32> <{TURNED}>\n"
            f"  {step}.d = bitcast <16 x i8> {step}.c to <2 x i64>\n"
            f"  {result} = extractelement <2 x i64> {step}.d, i64 0\n"
        )

    return SWAP.sub(shuffle, code)


def by_whole_loads(words: str) -> str:
    """WebAssembly's words without loads and stores of a vector's parts. wasm-opt 108 leaves wide addresses in those."""
    heads = list(HEAD.finditer(words))
    if not heads:
        return words
    ends = [head.start() for head in heads[1:]] + [len(words)]
    functions = (whole_function(head, words[head.end() : end]) for head, end in zip(heads, ends, strict=True))
    return words[: heads[0].start()] + "".join(functions)


def whole_function(head: re.Match[str], body: str) -> str:
    """A function's head and what follows it, with three more variables: for a vector and for a part of either width."""
    if not PART.search(body):
        return head[0] + body
    own = head[2].split(", ") if head[2] else []
    first = len(own) + (len(head[1].split(", ")) if head[1] else 0)
    declared = ", ".join([*own, "v128", "i32", "i64"])
    return f"{head[0].splitlines()[0]}\n\t.local  \t{declared}\n" + PART.sub(lambda it: alone(it, first), body)


def alone(found: re.Match[str], vector: int) -> str:
    """Reads or writes the part alone. A vector that is above its address on the stack is put aside."""
    way, bits, kind, place, lane = found.groups()
    load, store, shape = ALONE[int(bits)]
    part = vector + (2 if bits == "64" else 1)
    if way == "store":
        sign = "_u" if int(bits) < 32 else ""
        steps = [f"{shape}.extract_lane{sign}\t{lane}", f"{store}\t{place}"]
    elif kind == "splat":
        steps = [f"{load}\t{place}", f"{shape}.splat"]
    elif kind == "zero":
        steps = [f"{load}\t{place}", f"local.set\t{part}", "v128.const\t0, 0", f"local.get\t{part}"]
        steps += [f"{shape}.replace_lane\t0"]
    else:
        steps = [f"local.set\t{vector}", f"{load}\t{place}", f"local.set\t{part}"]
        steps += [f"local.get\t{vector}", f"local.get\t{part}", f"{shape}.replace_lane\t{lane}"]
    return "".join(f"\t{step}\n" for step in steps)
