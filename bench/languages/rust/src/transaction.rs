//! A transaction of Aptos, as a wallet has it.
use crate::digits::Digits;
use bcs_proved::Bytes;
use serde::{Deserialize, Serialize};

pub type Address = Digits<[u8; 32]>;

#[derive(Clone, Debug, PartialEq, Serialize, Deserialize)]
pub struct RawTransaction {
    pub sender: Address,
    pub sequence_number: u64,
    pub payload: Payload,
    pub max_gas_amount: u64,
    pub gas_unit_price: u64,
    pub expiration_timestamp_secs: u64,
    pub chain_id: u8,
}

#[derive(Clone, Debug, PartialEq, Serialize, Deserialize)]
pub enum Payload {
    EntryFunction(EntryFunction),
}

#[derive(Clone, Debug, PartialEq, Serialize, Deserialize)]
pub struct EntryFunction {
    pub module: ModuleId,
    pub function: String,
    pub ty_args: Vec<TypeTag>,
    pub args: Vec<Digits<Bytes>>,
}

#[derive(Clone, Debug, PartialEq, Serialize, Deserialize)]
pub struct ModuleId {
    pub address: Address,
    pub name: String,
}

#[derive(Clone, Debug, PartialEq, Serialize, Deserialize)]
pub enum TypeTag {
    Vector(Box<TypeTag>),
    Struct(StructTag),
}

#[derive(Clone, Debug, PartialEq, Serialize, Deserialize)]
pub struct StructTag {
    pub address: Address,
    pub module: String,
    pub name: String,
    pub type_args: Vec<TypeTag>,
}
