//! A wallet makes the message that it signs for a transfer on Aptos, and shows what it signs: wallet EXAMPLES

use bcs_proved::{Address, Bytes, Error, Registry};
use serde::Serialize;
use std::path::PathBuf;

/// Aptos signs the bytes after the SHA3-256 of "APTOS::RawTransaction".
const NAME: &str = "b5e97db07fa0bd0e5598aa3643a9bc6f6693bddc1a9fec9e674a461eaa00b193";

#[derive(Serialize)]
struct RawTransaction {
    sender: Address,
    sequence_number: u64,
    payload: TransactionPayload,
    max_gas_amount: u64,
    gas_unit_price: u64,
    expiration_timestamp_secs: u64,
    chain_id: u8,
}

#[derive(Serialize)]
enum TransactionPayload {
    EntryFunction(EntryFunction),
}

#[derive(Serialize)]
struct EntryFunction {
    module: ModuleId,
    function: &'static str,
    ty_args: Vec<TypeTag>,
    args: Vec<Bytes>,
}

#[derive(Serialize)]
struct ModuleId {
    address: Address,
    name: &'static str,
}

#[derive(Serialize)]
enum TypeTag {
    Struct(StructTag),
}

#[derive(Serialize)]
struct StructTag {
    address: Address,
    module: &'static str,
    name: &'static str,
    type_args: Vec<TypeTag>,
}

fn transfer(registry: &Registry, sender: Address, recipient: Address, amount: u64) -> Result<RawTransaction, Error> {
    let mut framework = Address::default();
    framework.0[31] = 1;
    let coin = StructTag { address: framework, module: "aptos_coin", name: "AptosCoin", type_args: vec![] };
    let call = EntryFunction {
        module: ModuleId { address: framework, name: "coin" },
        function: "transfer",
        ty_args: vec![TypeTag::Struct(coin)],
        args: vec![Bytes(registry.encode("AccountAddress", &recipient)?), Bytes(registry.encode("\"U64\"", &amount)?)],
    };
    Ok(RawTransaction {
        sender,
        sequence_number: 11,
        payload: TransactionPayload::EntryFunction(call),
        max_gas_amount: 2000,
        gas_unit_price: 1,
        expiration_timestamp_secs: 1234567890,
        chain_id: 4,
    })
}

/// A part of an error, which is missing if memory ran out.
fn named(part: Option<&str>) -> &str {
    part.unwrap_or("?")
}

fn main() -> Result<(), Box<dyn std::error::Error>> {
    let examples = PathBuf::from(std::env::args_os().nth(1).ok_or("usage: wallet EXAMPLES")?);
    let registry = Registry::read(std::fs::read(examples.join("aptos_registry.json"))?)?;
    let sender = "0x7deeccb1080854f499ec8b4c1b213b82c5e34b925cf6875fec02d4b77adbd2d6".parse()?;
    let recipient = "0x2d133ddd281bb6205558357cc6ac75661817e9aaeac3afebc32842759cbf7fa9".parse()?;
    let data = registry.encode("RawTransaction", &transfer(&registry, sender, recipient, 5000)?)?;
    let digits: String = data.iter().map(|byte| format!("{byte:02x}")).collect();
    println!("{NAME}{digits}");
    println!("{}", registry.decode_json("RawTransaction", &data)?);

    let damaged = std::fs::read(examples.join("aptos_transfer_damaged.json"))?;
    if let Err(error) = registry.encode_json("RawTransaction", damaged) {
        println!("{} {}", named(error.reason()), named(error.at()));
    }
    if let Err(error) = registry.decode_json("RawTransaction", &data[..100]) {
        let place = error.place().ok_or("no place")?;
        println!("{} {place} {}", named(error.reason()), named(error.at()));
    }
    Ok(())
}
