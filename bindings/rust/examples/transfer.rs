//! Encodes an Aptos transfer, and prints its bytes and what each of them is:
//!
//!     cargo run --example transfer
use bcs_proved::{Error, Form, Registry};

const REGISTRY: &str = include_str!("../../../examples/aptos_registry.json");

const TRANSFER: &str = r#"{
    "sender": "7deeccb1080854f499ec8b4c1b213b82c5e34b925cf6875fec02d4b77adbd2d6",
    "sequence_number": 11,
    "payload": {"EntryFunction": {
        "module": {"address": "0000000000000000000000000000000000000000000000000000000000000001", "name": "coin"},
        "function": "transfer",
        "ty_args": [{"Struct": {
            "address": "0000000000000000000000000000000000000000000000000000000000000001",
            "module": "aptos_coin",
            "name": "AptosCoin",
            "type_args": []
        }}],
        "args": ["2d133ddd281bb6205558357cc6ac75661817e9aaeac3afebc32842759cbf7fa9", "8813000000000000"]
    }},
    "max_gas_amount": 2000,
    "gas_unit_price": 1,
    "expiration_timestamp_secs": 1234567890,
    "chain_id": 4
}"#;

fn main() -> Result<(), Error> {
    let registry = Registry::read(REGISTRY)?;
    let bytes = registry.encode_json("RawTransaction", TRANSFER)?;
    for byte in &bytes {
        print!("{byte:02x}");
    }
    println!("\n");
    print!("{}", registry.explain_text("RawTransaction", &bytes, Form::Ways)?);
    Ok(())
}
