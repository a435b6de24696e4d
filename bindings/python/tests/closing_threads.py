"""One thread closes a large registry while others are refused by it. test_handles.py runs it, since a call that reads
freed memory may end the process."""

import sys
import threading
import time

from bcs_proved import FormatError, Registry

ROUNDS, THREADS = 100, 4
CONTAINERS = {f"Container{place}": {"STRUCT": [{"field": "U8"}]} for place in range(300)}
MESSAGE = "refused: UnknownName: no container is called None"


def refused(registry: Registry, ends: list[str]) -> None:
    """Is refused until the registry is closed."""
    try:
        while True:
            try:
                registry.decode("None", b"")
            except FormatError as fault:
                assert str(fault) == MESSAGE, fault
                ends.append("refused")
    except ValueError:
        ends.append("closed")


def run() -> None:
    ends: list[str] = []
    sys.setswitchinterval(1e-5)
    for _ in range(ROUNDS):
        registry = Registry(CONTAINERS)
        threads = [threading.Thread(target=refused, args=(registry, ends)) for _ in range(THREADS)]
        for thread in threads:
            thread.start()
        time.sleep(0.002)
        registry.close()
        for thread in threads:
            thread.join()
    assert ends.count("refused") > ROUNDS, ends.count("refused")
    print(f"{ends.count('closed')} threads, and no other end")


if __name__ == "__main__":
    run()
