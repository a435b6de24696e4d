"""Times the calls of bindings/python for bench/values.py: python.py EXAMPLES."""

from __future__ import annotations

import pathlib
import sys
import time
from collections.abc import Callable

from bcs_proved import BcsError, Registry
from plain import Plain, PlainReader

RUNS = 7
# A run takes about this many seconds.
RUN = 0.1


def report(name: str, call: Callable[[], object]) -> None:
    """Prints the microseconds of processor time for a call, the least of all runs."""

    def measure(count: int) -> float:
        start = time.process_time()
        for _ in range(count):
            call()
        return time.process_time() - start

    count = 1
    while measure(count) < RUN / 10:
        count *= 2
    count = int(count * RUN / measure(count)) + 1
    print(name, min(measure(count) for _ in range(RUNS)) / count * 1e6, flush=True)


def refused(call: Callable[[], object]) -> Callable[[], None]:
    def refuse() -> None:
        try:
            call()
        except BcsError:
            return
        raise AssertionError("not refused")

    return refuse


def transfer(examples: pathlib.Path) -> None:
    registry, form = Registry(examples / "aptos_registry.json", names={"address": ["AccountAddress"]}), "RawTransaction"
    text = (examples / "aptos_transfer.json").read_text(encoding="utf-8")
    data = bytes.fromhex((examples / "aptos_transfer.hex").read_text(encoding="utf-8"))
    value, plain = registry.decode(form, data), Plain()
    assert data == registry.encode(form, value) == plain.encoded(value)
    assert value == PlainReader(data).decoded()
    wrong = text.replace('"chain_id": 4', '"chain_id": -4')
    report("transfer encode values", lambda: registry.encode(form, value))
    report("transfer encode values-refused", refused(lambda: registry.encode(form, value | {"chain_id": -4})))
    report("transfer encode text", lambda: registry.encode_json(form, text))
    report("transfer encode text-refused", refused(lambda: registry.encode_json(form, wrong)))
    report("transfer encode plain", lambda: plain.encoded(value))
    report("transfer decode values", lambda: registry.decode(form, data))
    report("transfer decode values-refused", refused(lambda: registry.decode(form, data[:-1])))
    report("transfer decode text", lambda: registry.decode_json(form, data))
    report("transfer decode text-refused", refused(lambda: registry.decode_json(form, data[:-1])))
    report("transfer decode plain", lambda: PlainReader(data).decoded())


def megabyte() -> None:
    registry, form, plain = Registry("{}"), '"BYTES"', Plain()
    value = bytes((number * 2654435761 >> 24) & 255 for number in range(1000000))
    data, text = registry.encode(form, value), f'"{value.hex()}"'
    assert registry.decode_json(form, data) == text and registry.decode(form, data) == value
    report("bytes encode values", lambda: registry.encode(form, value))
    report("bytes encode text", lambda: registry.encode_json(form, text))
    report("bytes encode plain", lambda: plain.octets(value))
    report("bytes decode values", lambda: registry.decode(form, data))
    report("bytes decode text", lambda: registry.decode_json(form, data))
    report("bytes decode plain", lambda: PlainReader(data).octets())


if __name__ == "__main__":
    transfer(pathlib.Path(sys.argv[1]))
    megabyte()
