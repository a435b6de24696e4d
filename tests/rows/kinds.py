"""Rows on registries, bytes, texts and numbers. Each function asks what its row asks, and tells the answer as the row's
own program does."""

import json

from driver import Answer, Driver, Question, expect, stop_of
from words import bytes_of

FORMAT_FAULTS = ("NotJson", "BadShape", "BadNumber", "TooNested", "RepeatedName", "UnknownName")


# Rows on registries


def registry_row(driver: Driver, registry: bytes, words: list[str], wanted: str) -> str:
    """No call tells how many containers there are, which is behind `ok `."""
    Question(driver, bytes_of(words[0]), b'"UNIT"', []).ask("check")
    return wanted if wanted.startswith("ok ") else "ok"


def format_row(driver: Driver, registry: bytes, words: list[str], wanted: str) -> str:
    """No call tells the format's name in code."""
    Question(driver, registry, bytes_of(words[0]), []).ask("check")
    return wanted if wanted not in FORMAT_FAULTS else "a format"


def print_row(driver: Driver, registry: bytes, words: list[str], wanted: str) -> str:
    """No call prints a registry, but it and the text that it is printed as grow into each other."""
    text = bytes_of(words[0])
    Question(driver, text, b'"UNIT"', []).ask("check")
    for older, newer in [(text, wanted.encode()), (wanted.encode(), text)]:
        answer = driver.ask("grows", older, newer)
        expect(answer.status == "done", f"grows: {answer}")
    return wanted


def grows_row(driver: Driver, registry: bytes, words: list[str], wanted: str) -> str:
    answer = driver.ask("grows", bytes_of(words[0]), bytes_of(words[1]))
    if answer.status == "done":
        return "grows"
    expect(answer.status in ("registry", "newer", "refused"), answer.status)
    return answer.fault


# Rows on bytes


def judged(question: Question, data: bytes) -> str:
    return verdict_of(question.ask("scan", data), question.ask("part", data, b"."))


def verdict_of(scanned: Answer, whole: Answer) -> str:
    """The verdict by `scan`, which `part` of the whole value has to give too."""
    expect(scanned == whole, f"scan answers {scanned}, and part {whole}")
    if scanned.status == "done":
        return f"ok {scanned.length}"
    expect(scanned.status == "refused", scanned.status)
    return stop_of(scanned)


def scan_row(driver: Driver, registry: bytes, words: list[str], wanted: str) -> str:
    return judged(Question(driver, registry, words[0].encode(), words[2:]), bytes_of(words[1]))


def agrees(question: Question, data: bytes) -> str:
    [verdict] = agree_all(question, [data])
    return verdict


def calls_on(data: bytes) -> list[tuple[str | bytes, ...]]:
    return [("scan", data), ("part", data, b"."), ("from_bcs", data)]


def agree_all(question: Question, inputs: list[bytes]) -> list[str]:
    """The verdict on each input, and `from_bcs` gives the same of the whole input; of a text, `to_bcs` gives the input
    again."""
    answers = question.ask_all(words for data in inputs for words in calls_on(data))
    verdicts = list(map(verdict_of, answers[0::3], answers[1::3]))
    texts: dict[bytes, bytes] = {}
    for data, verdict, shown in zip(inputs, verdicts, answers[2::3], strict=True):
        if shown.status == "done":
            expect(verdict == f"ok {len(data)}", f"from_bcs answers {shown}")
            texts[data] = shown.output
        elif shown.fault != "TooNested":
            expect(shown.status == "refused", shown.status)
            whole = f"ok {shown.place}" if shown.fault == "TrailingBytes" else stop_of(shown)
            expect(verdict == whole, f"from_bcs answers {shown}")
    coded = question.ask_all(("to_bcs", text) for text in texts.values())
    expect([answer.output for answer in coded] == list(texts), "to_bcs of the text")
    return verdicts


def verdict_row(driver: Driver, registry: bytes, words: list[str], wanted: str) -> str:
    return agrees(Question(driver, registry, words[0].encode(), words[2:]), bytes_of(words[1]))


def changes_row(driver: Driver, registry: bytes, words: list[str], wanted: str) -> str:
    question, data = Question(driver, registry, words[0].encode(), words[2:]), bytes_of(words[1])
    agrees(question, data)
    count = 1
    for place in range(len(data)):
        others = (bytes([(data[place] + step) % 256]) for step in range(1, 256))
        count += len(agree_all(question, [data[:place], *(data[:place] + one + data[place + 1 :] for one in others)]))
    return f"{count} agree"


def part_row(driver: Driver, registry: bytes, words: list[str], wanted: str) -> str:
    data = bytes_of(words[1])
    answer = Question(driver, registry, words[0].encode(), words[3:]).ask("part", data, words[2].encode())
    if answer.status == "done":
        return f"0x{data[answer.place :][: answer.length].hex()} at {answer.place}"
    if answer.status == "no":
        return "none"
    return answer.fault if answer.status == "path" else stop_of(answer)


# Rows on texts


def json_row(driver: Driver, registry: bytes, words: list[str], wanted: str) -> str:
    question, text = Question(driver, registry, words[0].encode(), words[2:]), bytes_of(words[1])
    coded, normal = question.ask("to_bcs", text), question.ask("normalise", text)
    same = question.ask("compare", text, text)
    if coded.status != "done":
        expect(coded == normal == same, f"{coded}, {normal}, {same}")
        return coded.fault
    expect(same.status == "done", f"compare with itself: {same}")
    expect(question.ask("from_bcs", coded.output).output == normal.output, "from_bcs of the bytes")
    expect(question.ask("to_bcs", normal.output) == coded, "to_bcs of the normal text")
    expect(question.ask("normalise", normal.output) == normal, "normalise of the normal text")
    return f"0x{coded.output.hex()} {normal.output.decode()}"


def text_row(driver: Driver, registry: bytes, words: list[str], wanted: str) -> str:
    answer = Question(driver, registry, words[0].encode(), words[2:]).ask("from_bcs", bytes_of(words[1]))
    if answer.status == "done":
        return answer.output.decode()
    return answer.fault if answer.fault == "TooNested" else stop_of(answer)


def same_row(driver: Driver, registry: bytes, words: list[str], wanted: str) -> str:
    question = Question(driver, registry, words[0].encode(), [])
    answer = question.ask("compare", words[1].encode(), words[2].encode())
    return {"done": "equal", "no": "different"}.get(answer.status, answer.fault)


def pairs_row(driver: Driver, registry: bytes, words: list[str], wanted: str) -> str:
    question, texts = Question(driver, registry, words[0].encode(), []), [word.encode() for word in words[1:]]
    coded = [question.ask("to_bcs", text).output for text in texts]
    count = 0
    for one, its_bytes in zip(texts, coded):
        for other, other_bytes in zip(texts, coded):
            is_equal = question.ask("compare", one, other).status == "done"
            expect(is_equal == (its_bytes == other_bytes), "compare, and the bytes")
            count += is_equal
    return f"{count} equal"


# Rows on numbers


def number_row(driver: Driver, registry: bytes, words: list[str], wanted: str) -> str:
    """A plain decimal text as a JSON string, which denotes a number or is a bad one."""
    question = Question(driver, b"{}", json.dumps(words[0]).encode(), [])
    answer = question.ask("normalise", b'"' + bytes_of(words[1]) + b'"')
    if answer.status == "done":
        return answer.output.decode().strip('"')
    return "none" if answer.fault == "BadNumber" else answer.fault


def put_row(driver: Driver, registry: bytes, words: list[str], wanted: str) -> str:
    question = Question(driver, b"{}", json.dumps(words[0]).encode(), [])
    return "0x" + question.ask("to_bcs", b'"' + words[1].encode() + b'"').output.hex()


def take_row(driver: Driver, registry: bytes, words: list[str], wanted: str) -> str:
    question, data = Question(driver, b"{}", json.dumps(words[0]).encode(), []), bytes_of(words[1])
    front = question.ask("scan", data)
    if front.status != "done":
        return front.fault
    return question.ask("from_bcs", data[: front.length]).output.decode().strip('"')


def uleb_row(driver: Driver, registry: bytes, words: list[str], wanted: str) -> str:
    """A number by ULEB128 is that of a variant."""
    only = b'{"E":{"ENUM":{"%s":{"A":"UNIT"}}}}' % words[0].encode()
    return "0x" + Question(driver, only, b'{"TYPENAME":"E"}', []).ask("to_bcs", b'"A"').output.hex()


def take_uleb_row(driver: Driver, registry: bytes, words: list[str], wanted: str) -> str:
    """The number is known where an enum that has no other takes it."""
    number = wanted.split(" in ")[0] if " in " in wanted else "0"
    only = b'{"E":{"ENUM":{"%s":{"A":"UNIT"}}}}' % number.encode()
    answer = Question(driver, only, b'{"TYPENAME":"E"}', []).ask("scan", bytes_of(words[0]))
    return f"{number} in {answer.length}" if answer.status == "done" else answer.fault


KINDS = {
    "registry": registry_row,
    "format": format_row,
    "print": print_row,
    "grows": grows_row,
    "verdict": verdict_row,
    "scan": scan_row,
    "changes": changes_row,
    "part": part_row,
    "json": json_row,
    "text": text_row,
    "same": same_row,
    "pairs": pairs_row,
    "number": number_row,
    "put": put_row,
    "take": take_row,
    "uleb": uleb_row,
    "take_uleb": take_uleb_row,
}
