"""From the arguments of a Move function to the bytes that are signed, for Sui:

    PYTHONPATH=bindings/python python3 examples/move/stake.py TYPES

TYPES is the registry that `bcs from-move` makes for FUNCTION. Prints TransactionData in hexadecimal.
"""

import json
import pathlib
import sys

from bcs_proved import Registry

FUNCTION = "0x3::sui_system::request_add_stake"
VALIDATOR, AMOUNT = "0x" + 64 * "2", 1_000_000_000
EXAMPLES = pathlib.Path(__file__).resolve().parent.parent

types = Registry.from_file(sys.argv[1])
chain = Registry.from_file(EXAMPLES / "sui_registry.json")
transaction = json.loads((EXAMPLES / "sui_stake.json").read_text(encoding="ascii"))
inputs = transaction["V1"]["kind"]["ProgrammableTransaction"]["inputs"]
# A pure input is a byte string: the BCS of its value. Objects have no bytes here.
inputs[0] = {"Pure": types.encode('"U64"', AMOUNT).hex()}
inputs[3] = {"Pure": types.encode(f"{FUNCTION}::arg2", VALIDATOR).hex()}
print(chain.encode_json("TransactionData", json.dumps(transaction)).hex())
