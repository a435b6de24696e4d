//! The tree of a value. It carries the widths of its numbers, so that its bytes need no format.

pub enum Value {
    Unit,
    Bool(bool),
    Unsigned(u8, u128),
    Signed(u8, i128),
    Text(String),
    Bytes(Vec<u8>),
    Absent,
    Present(Box<Value>),
    List(Vec<Value>),
    Items(Vec<Value>),
    Pairs(Vec<(Value, Value)>),
    Variant(u32, Box<Value>),
}
