"""The transactions of examples/, and the README's example."""

import doctest
import pathlib
import threading
import unittest

import bcs_proved
from bcs_proved import Registry

ROOT = pathlib.Path(__file__).resolve().parent.parent.parent.parent
EXAMPLES = ROOT / "examples"
TRANSACTIONS = [
    ("aptos_registry", "RawTransaction", "aptos_transfer"),
    ("aptos_registry", "SignedTransaction", "aptos_two_of_three"),
    ("sui_registry", "TransactionData", "sui_stake"),
    ("sui_registry", "TransactionData", "sui_transfer"),
]


def text_of(name: str) -> str:
    return (EXAMPLES / name).read_text(encoding="utf-8")


def registry_of(name: str) -> Registry:
    return Registry(text_of(f"{name}.json"))


class Examples(unittest.TestCase):
    def test_documents(self) -> None:
        """What the module and the README show is what comes out."""
        self.assertGreater(doctest.testmod(bcs_proved).attempted, 3)
        readme = pathlib.Path(__file__).resolve().parent.parent / "README.md"
        found = doctest.testfile(str(readme), module_relative=False)
        self.assertGreater(found.attempted, 4)
        self.assertEqual(found.failed + doctest.testmod(bcs_proved).failed, 0)


class Threads(unittest.TestCase):
    def test_eight_threads(self) -> None:
        """Eight threads at once, each with all transactions, over registries that all share."""
        registries = {name: registry_of(name) for name, _, _ in TRANSACTIONS}
        faults: list[object] = []

        def code_all(first: int) -> None:
            try:
                for step in range(100):
                    registry_name, format, name = TRANSACTIONS[(first + step) % len(TRANSACTIONS)]
                    registry, data = registries[registry_name], bytes.fromhex(texts[f"{name}.hex"])
                    assert registry.encode_json(format, texts[f"{name}.json"]) == data
                    assert registry.decode_json(format, data) == texts[f"{name}_normal.json"].rstrip("\n")
                    assert registry.scan(format, data) == len(data)
            except BaseException as fault:
                faults.append(fault)

        texts = {
            name: text_of(name)
            for _, _, front in TRANSACTIONS
            for name in (f"{front}.json", f"{front}.hex", f"{front}_normal.json")
        }
        threads = [threading.Thread(target=code_all, args=(first,)) for first in range(8)]
        for thread in threads:
            thread.start()
        for thread in threads:
            thread.join()
        self.assertEqual(faults, [])


if __name__ == "__main__":
    unittest.main()
