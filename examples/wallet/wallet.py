"""A wallet makes the message that it signs for a transfer on Aptos, and shows what it signs: wallet.py EXAMPLES."""

import hashlib
import pathlib
import sys

from bcs_proved import BcsError, Registry

examples = pathlib.Path(sys.argv[1])
registry = Registry(examples / "aptos_registry.json", names={"address": ["AccountAddress"]})
recipient = registry.encode("AccountAddress", "0x2d133ddd281bb6205558357cc6ac75661817e9aaeac3afebc32842759cbf7fa9")
coin = {"Struct": {"address": "0x1", "module": "aptos_coin", "name": "AptosCoin", "type_args": []}}
call = {
    "module": {"address": "0x1", "name": "coin"},
    "function": "transfer",
    "ty_args": [coin],
    "args": [recipient, registry.encode('"U64"', 5000)],
}
transfer = {
    "sender": "0x7deeccb1080854f499ec8b4c1b213b82c5e34b925cf6875fec02d4b77adbd2d6",
    "sequence_number": 11,
    "payload": {"EntryFunction": call},
    "max_gas_amount": 2000,
    "gas_unit_price": 1,
    "expiration_timestamp_secs": 1234567890,
    "chain_id": 4,
}
data = registry.encode("RawTransaction", transfer)

# Aptos signs the bytes after the hash of this name.
print((hashlib.sha3_256(b"APTOS::RawTransaction").digest() + data).hex())
print(registry.decode_json("RawTransaction", data))

try:
    registry.encode_json("RawTransaction", (examples / "aptos_transfer_damaged.json").read_text())
except BcsError as error:
    print(error.reason, error.at)
try:
    registry.decode("RawTransaction", data[:100])
except BcsError as error:
    print(error.reason, error.place, error.at)
