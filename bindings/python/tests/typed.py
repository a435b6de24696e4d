"""Values with the types that `bcs_proved.types` wrote of the registries in examples/. mypy reads this, and it runs.
Lines with a comment of an error are refused by mypy, with this text, and no others are."""

import pathlib
import sys
from typing import Any, Union

import aptos
import move
import plain_move
import plain_shapes
import shapes
import sui
from bcs_proved import Registry

ROOT = pathlib.Path(sys.argv[1])
EXAMPLES = ROOT / "examples"
APTOS = Registry(EXAMPLES / "aptos_registry.json")
SUI = Registry(EXAMPLES / "sui_registry.json")
SHAPES = Registry(ROOT / "bindings/web/tests/shapes.json")
MOVE = Registry(ROOT / "bindings/python/tests/move.json", names={"address": ["address", "Account"]})


def bytes_of(name: str) -> bytes:
    return bytes.fromhex((EXAMPLES / name).read_text(encoding="utf-8"))


one = bytes(31) + b"\1"
coin: aptos.TypeTag = {"Struct": {"address": one, "module": "aptos_coin", "name": "AptosCoin", "type_args": []}}
call: aptos.EntryFunction = {
    "module": {"address": one, "name": "coin"},
    "function": "transfer",
    "ty_args": [coin],
    "args": [
        bytes.fromhex("2d133ddd281bb6205558357cc6ac75661817e9aaeac3afebc32842759cbf7fa9"),
        bytes.fromhex("8813000000000000"),
    ],
}
transfer: aptos.RawTransaction = {
    "sender": bytes.fromhex("7deeccb1080854f499ec8b4c1b213b82c5e34b925cf6875fec02d4b77adbd2d6"),
    "sequence_number": 11,
    "payload": {"EntryFunction": call},
    "max_gas_amount": 2000,
    "gas_unit_price": 1,
    "expiration_timestamp_secs": 1234567890,
    "chain_id": 4,
}


def name_of(payload: aptos.TransactionPayload) -> str:
    return payload["EntryFunction"]["module"]["name"] if "EntryFunction" in payload else ""


def width_of(tag: aptos.TypeTag) -> int:
    if isinstance(tag, str):
        return int(tag[1:])
    return width_of(tag["Vector"]) if "Vector" in tag else len(tag["Struct"]["name"])


def right() -> None:
    assert APTOS.encode("RawTransaction", transfer) == bytes_of("aptos_transfer.hex")
    back: aptos.RawTransaction = APTOS.decode("RawTransaction", bytes_of("aptos_transfer.hex"))
    assert back == transfer and back["sequence_number"] + 1 == 12 and name_of(back["payload"]) == "coin"
    assert (width_of("U8"), width_of({"Vector": "U64"}), width_of(coin)) == (8, 64, 9)
    staked: sui.TransactionData = SUI.decode("TransactionData", bytes_of("sui_stake.hex"))
    assert staked["V1"]["gas_data"]["budget"] > 0 and SUI.encode("TransactionData", staked) == bytes_of("sui_stake.hex")
    prices: shapes.Prices = [["a", {"some": 7}], ["b", None]]
    assert SHAPES.decode("Prices", SHAPES.encode("Prices", prices)) == prices
    some: list[shapes.Shape] = [
        "Dot",
        {"Box": [1, 2]},
        {"Named": {"side": 3}},
        {"Bare": {}},
        {"Maybe": {"some": "Dot"}},
    ]
    assert SHAPES.decode({"SEQ": {"TYPENAME": "Shape"}}, SHAPES.encode({"SEQ": {"TYPENAME": "Shape"}}, some)) == some
    chain: shapes.Chain = {"value": 1, "next": {"some": {"value": 2, "next": None}}}
    tree: shapes.Tree = [[], [[]]]
    assert SHAPES.encode("Chain", chain) == b"\1\1\2\0" and SHAPES.encode("Tree", tree) == b"\2\0\1\0"
    named(bytes_of("aptos_transfer.hex"))


def named(data: bytes) -> None:
    """The names as formats have the types of the values."""
    back = APTOS.decode(aptos.RAW_TRANSACTION, data)
    assert back["sequence_number"] + 1 == 12 and APTOS.encode(aptos.RAW_TRANSACTION, back) == data
    front, length = APTOS.decode_prefix(aptos.RAW_TRANSACTION, data + b"more")
    assert front["chain_id"] == 4 and length == len(data)
    plain = SHAPES.decode(plain_shapes.CHAIN, b"\1\1\2\0", plain_options=True)
    assert plain["next"] == {"value": 2, "next": None} and SHAPES.encode(plain_shapes.CHAIN, plain) == b"\1\1\2\0"
    prices: plain_shapes.Prices = [["a", 7], ["b", None]]
    assert SHAPES.decode(plain_shapes.PRICES, SHAPES.encode(plain_shapes.PRICES, prices), plain_options=True) == prices


def moved() -> None:
    """Addresses are strings, and integers of 256 bits are int, also within other types."""
    coin: move.Coin = {
        "owner": f"0x{2:064x}",
        "value": 2**255,
        "digest": bytes(32),
        "next": {"some": f"0x{1:064x}"},
        "debts": [[f"0x{1:064x}", -1]],
        "history": [1, 2],
    }
    data = MOVE.encode(move.COIN, coin)
    back = MOVE.decode(move.COIN, data)
    assert back == coin and back["value"] + sum(back["history"]) == 2**255 + 3 and back["owner"].startswith("0x")
    plain = MOVE.decode(plain_move.COIN, data, plain_options=True)
    assert plain["next"] == f"0x{1:064x}" and MOVE.encode(plain_move.COIN, plain) == data
    sent: move.Event = {"Sent": [f"0x{1:064x}", 7]}
    assert MOVE.decode("Event", MOVE.encode("Event", sent)) == sent


def wrong_moves(coin: move.Coin) -> None:
    owner: move.Account = bytes(32)  # error: (expression has type "bytes", variable has type "str")
    value: move.u256 = "7"  # error: (expression has type "str", variable has type "int")
    history: list[bytes] = coin["history"]  # error: Incompatible types
    digest: str = coin["digest"]  # error: Incompatible types
    print(owner, value, history, digest)


def wrong_names(data: bytes, chain: plain_shapes.Chain) -> None:
    APTOS.encode(aptos.RAW_TRANSACTION, {"sender": one})  # error: Cannot infer type argument 1 of "encode"
    APTOS.encode(aptos.RAW_TRANSACTION, 7)  # error: Cannot infer type argument 1 of "encode"
    SHAPES.encode(shapes.CHAIN, chain)  # error: Cannot infer type argument 1 of "encode"
    one_field: str = APTOS.decode(aptos.RAW_TRANSACTION, data)["chain_id"]  # error: Incompatible types
    APTOS.decode(aptos.RAW_TRANSACTION, data)["fee"]  # error: has no key "fee"
    APTOS.decode_prefix(aptos.RAW_TRANSACTION, data)[0]["fee"]  # error: has no key "fee"
    SHAPES.decode(plain_shapes.CHAIN, data, plain_options=True)["fee"]  # error: has no key "fee"
    some: plain_shapes.Prices = [["a", {"some": 7}]]  # error: List item 1 has incompatible type
    print(one_field, some)


def wrong(script: aptos.Script, back: aptos.RawTransaction, prices: shapes.Prices) -> None:
    tags: list[aptos.TypeTag] = ["U512"]  # error: List item 0 has incompatible type "Literal['U512']"
    tag: aptos.TypeTag = {"Vector": []}  # error: Incompatible types
    other: aptos.TypeTag = {"Vectors": "U8"}  # error: Incompatible types
    named: aptos.TransactionPayload = "Script"  # error: Incompatible types
    both: aptos.TransactionPayload = {"Script": script, "EntryFunction": call}  # error: Incompatible types
    carried: aptos.TransactionPayload = {"Script": call}  # error: Incompatible types
    module: aptos.ModuleId = {"address": one}  # error: Missing key "name" for TypedDict "ModuleId"
    more: aptos.ModuleId = {"address": one, "name": "coin", "fee": 1}  # error: Extra key "fee" for TypedDict "ModuleId"
    digits: aptos.ModuleId = {
        "address": "01",  # error: (expression has type "str", TypedDict item "address" has type "bytes")
        "name": "coin",
    }
    absent: aptos.Multisig = {
        "multisig_address": one,
        "transaction_payload": {"EntryFunction": call},  # error: has type "Optional[Some_MultisigTransactionPayload]"
    }
    decimal: shapes.Id = "7"  # error: (expression has type "str", variable has type "int")
    wide: shapes.Prices = [["a", 7]]  # error: List item 1 has incompatible type "int"
    mapped: shapes.Prices = {"a": None}  # error: Incompatible types
    unit: shapes.Dust = {}  # error: (expression has type "Dict[<nothing>, <nothing>]", variable has type "None")
    empty: shapes.Empty = {"a": 1}  # error: Extra key "a" for TypedDict "Empty"
    floating: shapes.Float = 1.5  # error: (expression has type "float", variable has type "NoReturn")
    endless: shapes.Endless = None  # error: (expression has type "None", variable has type "NoReturn")
    never: shapes.Never = "A"  # error: (expression has type "str", variable has type "NoReturn")
    number: str = back["sequence_number"]  # error: (expression has type "int", variable has type "str")
    fee = back["fee"]  # error: TypedDict "RawTransaction" has no key "fee"
    code = back["payload"]["Script"]  # error: has no key "Script"
    entry: bytes = prices[0][1]  # error: Incompatible types
    staked: sui.TransactionData = back  # error: Incompatible types
    told: Union[Any, str] = (
        tags,
        tag,
        other,
        named,
        both,
        carried,
        module,
        more,
        digits,
        absent,
        decimal,
        wide,
        mapped,
        unit,
        empty,
    )
    print(told, floating, endless, never, number, fee, code, entry, staked)


if __name__ == "__main__":
    right()
    moved()
