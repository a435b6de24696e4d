"""From the arguments of a Move function to the bytes that are signed, for Aptos:

    PYTHONPATH=bindings/python python3 examples/move/transfer.py TYPES

TYPES is the registry that `bcs from-move` makes for FUNCTION. Prints a RawTransaction in hexadecimal.
"""

import json
import pathlib
import sys

from bcs_proved import Registry

FUNCTION = "0x1::coin::transfer<0x1::aptos_coin::AptosCoin>"
TO, AMOUNT = "0x2d133ddd281bb6205558357cc6ac75661817e9aaeac3afebc32842759cbf7fa9", 5000
EXAMPLES = pathlib.Path(__file__).resolve().parent.parent

types = Registry.from_file(sys.argv[1])
chain = Registry.from_file(EXAMPLES / "aptos_registry.json")
# Each argument is a byte string: the BCS of its value.
arguments = [types.encode(f"{FUNCTION}::arg{number}", value) for number, value in enumerate([TO, AMOUNT])]
transaction = json.loads((EXAMPLES / "aptos_transfer.json").read_text(encoding="ascii"))
transaction["payload"]["EntryFunction"]["args"] = [argument.hex() for argument in arguments]
print(chain.encode_json("RawTransaction", json.dumps(transaction)).hex())
