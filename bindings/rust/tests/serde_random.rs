//! Random values of random registries there and back, with the bytes that tests/rows/random_values.py makes of them.
#![cfg(feature = "serde_json")]

use bcs_proved::{Address, Format, I256, Registry, U256};
use serde::de::{
    Deserialize, DeserializeSeed, Deserializer, EnumAccess, Error, MapAccess, SeqAccess, VariantAccess, Visitor,
};
use serde::ser::{
    Serialize, SerializeMap, SerializeSeq, SerializeStruct, SerializeStructVariant, SerializeTuple,
    SerializeTupleVariant, Serializer,
};
use std::cell::RefCell;
use std::fmt;
use std::process::Command;

/// A name that lives as long as those in a program.
type Name = &'static str;

#[derive(Clone, Debug, PartialEq)]
enum Value {
    Unit,
    Bool(bool),
    /// Its bytes, and the number.
    Unsigned(usize, u128),
    Signed(usize, i128),
    U256(U256),
    I256(I256),
    Address(Address),
    Str(String),
    Bytes(Vec<u8>),
    Option(Option<Box<Value>>),
    List(Vec<Value>),
    /// Whether it is an array, and the bytes.
    Octets(bool, Vec<u8>),
    /// Of an array or a tuple.
    Tuple(Vec<Value>),
    Map(Vec<(Value, Value)>),
    Newtype(Box<Value>),
    Struct(Vec<(Name, Value)>),
    /// The payload's kind, the name, and the payload.
    Variant(Name, Name, Box<Value>),
}

fn bytes_of(digits: &str) -> Vec<u8> {
    let pairs = (0..digits.len()).step_by(2);
    pairs.map(|place| u8::from_str_radix(&digits[place..place + 2], 16).expect("two digits")).collect()
}

fn text_of(digits: &str) -> String {
    String::from_utf8(bytes_of(digits)).expect("UTF-8")
}

/// The value of words, of which each comes behind what it holds.
fn value_of(words: &str) -> Value {
    let mut made: Vec<Value> = Vec::new();
    for word in words.split(' ') {
        let mut names = word.split('.');
        let (kind, rest) = names.next().map(|word| word.split_once(':').unwrap_or((word, ""))).unwrap();
        let mut last = |count: usize| made.split_off(made.len() - count);
        let mut held = || Box::new(last(1).remove(0));
        let value = match kind.trim_start_matches("key-") {
            "unit" => Value::Unit,
            "true" | "false" => Value::Bool(kind == "true"),
            "text" => Value::Str(text_of(rest)),
            "bytes" => Value::Bytes(bytes_of(rest)),
            "octets" => Value::Octets(false, bytes_of(rest)),
            "octet-array" => Value::Octets(true, bytes_of(rest)),
            "address" => Value::Address(Address(bytes_of(rest).try_into().unwrap())),
            "u256" => Value::U256(rest.parse().unwrap()),
            "i256" => Value::I256(rest.parse().unwrap()),
            "none" => Value::Option(None),
            "some" => Value::Option(Some(held())),
            "newtype" => Value::Newtype(held()),
            "list" => Value::List(last(rest.parse().unwrap())),
            "array" | "tuple" => Value::Tuple(last(rest.parse().unwrap())),
            "map" => {
                let parts = last(2 * rest.parse::<usize>().unwrap());
                Value::Map(parts.chunks(2).map(|entry| (entry[0].clone(), entry[1].clone())).collect())
            }
            "struct" => {
                let names: Vec<Name> = names.map(|name| text_of(name).leak() as Name).collect();
                let parts = last(names.len());
                Value::Struct(names.into_iter().zip(parts).collect())
            }
            "variant" => {
                let (payload, name) = (names.next().unwrap(), names.next().unwrap());
                let held = if payload == "UNIT" { Box::new(Value::Unit) } else { held() };
                Value::Variant(payload.to_owned().leak(), text_of(name).leak(), held)
            }
            _ if kind.starts_with('U') => {
                Value::Unsigned(kind[1..].parse::<usize>().unwrap() / 8, rest.parse().unwrap())
            }
            _ => Value::Signed(kind[1..].parse::<usize>().unwrap() / 8, rest.parse().unwrap()),
        };
        made.push(value);
    }
    made.pop().unwrap()
}

impl Serialize for Value {
    fn serialize<S: Serializer>(&self, serializer: S) -> Result<S::Ok, S::Error> {
        match self {
            Value::Unit => serializer.serialize_unit(),
            Value::Bool(truth) => serializer.serialize_bool(*truth),
            Value::Unsigned(1, number) => serializer.serialize_u8(*number as u8),
            Value::Unsigned(2, number) => serializer.serialize_u16(*number as u16),
            Value::Unsigned(4, number) => serializer.serialize_u32(*number as u32),
            Value::Unsigned(8, number) => serializer.serialize_u64(*number as u64),
            Value::Unsigned(_, number) => serializer.serialize_u128(*number),
            Value::Signed(1, number) => serializer.serialize_i8(*number as i8),
            Value::Signed(2, number) => serializer.serialize_i16(*number as i16),
            Value::Signed(4, number) => serializer.serialize_i32(*number as i32),
            Value::Signed(8, number) => serializer.serialize_i64(*number as i64),
            Value::Signed(_, number) => serializer.serialize_i128(*number),
            Value::U256(number) => number.serialize(serializer),
            Value::I256(number) => number.serialize(serializer),
            Value::Address(address) => address.serialize(serializer),
            Value::Str(text) => serializer.serialize_str(text),
            Value::Bytes(bytes) => serializer.serialize_bytes(bytes),
            Value::Option(None) => serializer.serialize_none(),
            Value::Option(Some(value)) => serializer.serialize_some(value),
            Value::Octets(_, bytes) if bytes.len() % 2 == 0 => serializer.serialize_bytes(bytes),
            Value::Octets(false, bytes) => bytes.serialize(serializer),
            Value::Octets(true, bytes) => {
                let mut array = serializer.serialize_tuple(bytes.len())?;
                bytes.iter().try_for_each(|byte| array.serialize_element(byte))?;
                array.end()
            }
            Value::List(values) => {
                let mut list = serializer.serialize_seq(Some(values.len()))?;
                values.iter().try_for_each(|value| list.serialize_element(value))?;
                list.end()
            }
            Value::Tuple(values) => {
                let mut tuple = serializer.serialize_tuple(values.len())?;
                values.iter().try_for_each(|value| tuple.serialize_element(value))?;
                tuple.end()
            }
            Value::Map(entries) => {
                let mut map = serializer.serialize_map(Some(entries.len()))?;
                entries.iter().rev().try_for_each(|(key, value)| map.serialize_entry(key, value))?;
                map.end()
            }
            Value::Newtype(value) => serializer.serialize_newtype_struct("N", value),
            Value::Struct(parts) => {
                let mut fields = serializer.serialize_struct("S", parts.len())?;
                // (fields match by name, so their order is another one here)
                parts.iter().rev().try_for_each(|(name, value)| fields.serialize_field(name, value))?;
                fields.end()
            }
            Value::Variant(kind, name, payload) => match &**payload {
                _ if *kind == "NEWTYPE" => serializer.serialize_newtype_variant("E", 0, name, payload),
                Value::Tuple(values) => {
                    let mut tuple = serializer.serialize_tuple_variant("E", 0, name, values.len())?;
                    values.iter().try_for_each(|value| tuple.serialize_field(value))?;
                    tuple.end()
                }
                Value::Struct(parts) => {
                    let mut fields = serializer.serialize_struct_variant("E", 0, name, parts.len())?;
                    parts.iter().try_for_each(|(name, value)| fields.serialize_field(name, value))?;
                    fields.end()
                }
                _ => serializer.serialize_unit_variant("E", 0, name),
            },
        }
    }
}

/// Reads a value as a type of Rust does that holds this one, and returns what it read.
#[derive(Clone, Copy)]
struct Like<'v>(&'v Value);

impl<'de> DeserializeSeed<'de> for Like<'_> {
    type Value = Value;

    fn deserialize<D: Deserializer<'de>>(self, deserializer: D) -> Result<Value, D::Error> {
        match self.0 {
            Value::Unit => deserializer.deserialize_unit(self),
            Value::Bool(_) => deserializer.deserialize_bool(self),
            Value::Unsigned(1, _) => u8::deserialize(deserializer).map(|number| Value::Unsigned(1, number.into())),
            Value::Unsigned(2, _) => u16::deserialize(deserializer).map(|number| Value::Unsigned(2, number.into())),
            Value::Unsigned(4, _) => u32::deserialize(deserializer).map(|number| Value::Unsigned(4, number.into())),
            Value::Unsigned(8, _) => u64::deserialize(deserializer).map(|number| Value::Unsigned(8, number.into())),
            Value::Unsigned(..) => u128::deserialize(deserializer).map(|number| Value::Unsigned(16, number)),
            Value::Signed(1, _) => i8::deserialize(deserializer).map(|number| Value::Signed(1, number.into())),
            Value::Signed(2, _) => i16::deserialize(deserializer).map(|number| Value::Signed(2, number.into())),
            Value::Signed(4, _) => i32::deserialize(deserializer).map(|number| Value::Signed(4, number.into())),
            Value::Signed(8, _) => i64::deserialize(deserializer).map(|number| Value::Signed(8, number.into())),
            Value::Signed(..) => i128::deserialize(deserializer).map(|number| Value::Signed(16, number)),
            Value::U256(_) => U256::deserialize(deserializer).map(Value::U256),
            Value::I256(_) => I256::deserialize(deserializer).map(Value::I256),
            Value::Address(_) => Address::deserialize(deserializer).map(Value::Address),
            Value::Str(_) => deserializer.deserialize_string(self),
            Value::Bytes(_) => deserializer.deserialize_byte_buf(self),
            Value::Option(_) => deserializer.deserialize_option(self),
            Value::List(_) | Value::Octets(false, _) => deserializer.deserialize_seq(self),
            Value::Octets(true, bytes) => deserializer.deserialize_tuple(bytes.len(), self),
            Value::Tuple(values) => deserializer.deserialize_tuple(values.len(), self),
            Value::Map(_) => deserializer.deserialize_map(self),
            Value::Newtype(value) => Like(value).deserialize(deserializer).map(|read| Value::Newtype(Box::new(read))),
            Value::Struct(parts) => deserializer.deserialize_struct("S", names(parts), self),
            Value::Variant(_, name, _) => deserializer.deserialize_enum("E", vec![*name].leak(), self),
        }
    }
}

fn names(parts: &[(Name, Value)]) -> &'static [Name] {
    parts.iter().map(|(name, _)| *name).collect::<Vec<Name>>().leak()
}

impl<'de> Visitor<'de> for Like<'_> {
    type Value = Value;

    fn expecting(&self, f: &mut fmt::Formatter) -> fmt::Result {
        write!(f, "{:?}", self.0)
    }

    fn visit_unit<E>(self) -> Result<Value, E> {
        Ok(Value::Unit)
    }

    fn visit_bool<E>(self, truth: bool) -> Result<Value, E> {
        Ok(Value::Bool(truth))
    }

    fn visit_str<E>(self, text: &str) -> Result<Value, E> {
        Ok(Value::Str(text.into()))
    }

    fn visit_byte_buf<E>(self, bytes: Vec<u8>) -> Result<Value, E> {
        Ok(Value::Bytes(bytes))
    }

    fn visit_none<E>(self) -> Result<Value, E> {
        Ok(Value::Option(None))
    }

    fn visit_some<D: Deserializer<'de>>(self, deserializer: D) -> Result<Value, D::Error> {
        let Value::Option(Some(held)) = self.0 else { return Err(D::Error::custom("an option that holds a value")) };
        Ok(Value::Option(Some(Box::new(Like(held).deserialize(deserializer)?))))
    }

    fn visit_seq<A: SeqAccess<'de>>(self, mut list: A) -> Result<Value, A::Error> {
        if let Value::Octets(is_array, _) = self.0 {
            let mut bytes = Vec::new();
            while let Some(byte) = list.next_element()? {
                bytes.push(byte);
            }
            return Ok(Value::Octets(*is_array, bytes));
        }
        let (Value::List(like) | Value::Tuple(like)) = self.0 else { return Err(A::Error::custom("a list")) };
        let mut values = Vec::new();
        for like in like {
            values.extend(list.next_element_seed(Like(like))?);
        }
        if matches!(self.0, Value::Tuple(_)) {
            return Ok(Value::Tuple(values));
        }
        assert!(list.next_element_seed(Like(&Value::Unit))?.is_none());
        Ok(Value::List(values))
    }

    fn visit_map<A: MapAccess<'de>>(self, mut map: A) -> Result<Value, A::Error> {
        if let Value::Map(like) = self.0 {
            let mut entries = Vec::new();
            for (key, value) in like {
                entries.push((map.next_key_seed(Like(key))?.unwrap(), map.next_value_seed(Like(value))?));
            }
            assert!(map.next_key_seed(Like(&Value::Unit))?.is_none());
            return Ok(Value::Map(entries));
        }
        let Value::Struct(like) = self.0 else { return Err(A::Error::custom("a map")) };
        let mut parts: Vec<(Name, Option<Value>)> = like.iter().map(|(name, _)| (*name, None)).collect();
        while let Some(name) = map.next_key::<String>()? {
            let place = like.iter().position(|(known, _)| *known == name).unwrap();
            assert_eq!(parts[place].1.replace(map.next_value_seed(Like(&like[place].1))?), None);
        }
        Ok(Value::Struct(parts.into_iter().map(|(name, value)| (name, value.unwrap())).collect()))
    }

    fn visit_enum<A: EnumAccess<'de>>(self, data: A) -> Result<Value, A::Error> {
        let Value::Variant(payload, name, like) = self.0 else { return Err(A::Error::custom("an enum")) };
        let (read, content) = data.variant::<String>()?;
        assert_eq!(read, *name);
        let value = match &**like {
            like if *payload == "NEWTYPE" => content.newtype_variant_seed(Like(like)),
            Value::Tuple(values) => content.tuple_variant(values.len(), Like(like)),
            Value::Struct(parts) => content.struct_variant(names(parts), Like(like)),
            _ => content.unit_variant().map(|()| Value::Unit),
        };
        Ok(Value::Variant(payload, name, Box::new(value?)))
    }
}

thread_local! {
    /// The value that `Read` reads, since a type has no other way to know it.
    static LIKE: RefCell<Value> = const { RefCell::new(Value::Unit) };
}

struct Read(Value);

impl<'de> Deserialize<'de> for Read {
    fn deserialize<D: Deserializer<'de>>(deserializer: D) -> Result<Read, D::Error> {
        let like = LIKE.with_borrow(Value::clone);
        Like(&like).deserialize(deserializer).map(Read)
    }
}

#[test]
fn random_values_come_and_go() {
    let script = concat!(env!("CARGO_MANIFEST_DIR"), "/../../tests/rows/random_values.py");
    let output = Command::new(script).arg("2500").output().unwrap();
    assert!(output.status.success(), "{output:?}");
    let (mut known, mut values, mut length) = (("", Registry::read("{}").unwrap()), 0, 0);
    for line in str::from_utf8(&output.stdout).unwrap().lines() {
        let [text, format, words, digits, _] = line.split('\t').collect::<Vec<_>>()[..] else { panic!("{line}") };
        if known.0 != text {
            known = (text, Registry::read(text).unwrap());
        }
        let (value, expected, format) = (value_of(words), bytes_of(digits), Format::json(format));
        LIKE.set(value.clone());
        assert_eq!(known.1.encode(&format, &value).as_ref(), Ok(&expected), "{line}");
        let Read(decoded) = known.1.decode(&format, &expected).unwrap();
        assert_eq!(decoded, value, "{line}");
        // The JSON of the value, too, is the same value.
        let json = known.1.decode_json_value(&format, &expected).unwrap();
        assert_eq!(known.1.encode_json_value(&format, &json).as_ref(), Ok(&expected), "{line}");
        values += 1;
        length += expected.len();
    }
    assert_eq!(values, 50_000);
    // (values of no bytes would show little)
    assert!(length / values > 20, "{length} bytes of {values} values");
}
