//! The values and types in tests/rows/values/rust.rows. Each is called there what it is called here.
use bcs_proved::{Bytes, Error, Format, Hex, Registry};
use serde::de::{DeserializeOwned, Deserializer, IgnoredAny, MapAccess, SeqAccess, Visitor};
use serde::ser::{SerializeMap, SerializeSeq, SerializeStruct, SerializeTuple, Serializer};
use serde::{Deserialize, Serialize};
use serde_json::{Value, json};
use std::cell::Cell;
use std::collections::{BTreeMap, BTreeSet, BinaryHeap};
use std::fmt::{self, Debug};
use std::marker::PhantomData;
use std::num::{NonZeroU32, NonZeroU64};

/// What the crate `serde_bytes` has: bytes that are bytes for `serde`.
#[derive(Debug)]
struct ByteBuf(Vec<u8>);

impl Serialize for ByteBuf {
    fn serialize<S: Serializer>(&self, serializer: S) -> Result<S::Ok, S::Error> {
        serializer.serialize_bytes(&self.0)
    }
}

impl<'de> Deserialize<'de> for ByteBuf {
    fn deserialize<D: Deserializer<'de>>(deserializer: D) -> Result<ByteBuf, D::Error> {
        deserializer.deserialize_byte_buf(ByteVisitor)
    }
}

/// It takes as much as that of `serde_bytes`.
struct ByteVisitor;

impl<'de> Visitor<'de> for ByteVisitor {
    type Value = ByteBuf;

    fn expecting(&self, f: &mut fmt::Formatter) -> fmt::Result {
        f.write_str("bytes")
    }

    fn visit_byte_buf<E>(self, bytes: Vec<u8>) -> Result<ByteBuf, E> {
        Ok(ByteBuf(bytes))
    }

    fn visit_str<E>(self, text: &str) -> Result<ByteBuf, E> {
        Ok(ByteBuf(text.into()))
    }

    fn visit_seq<A: SeqAccess<'de>>(self, mut seq: A) -> Result<ByteBuf, A::Error> {
        let mut bytes = Vec::new();
        while let Some(byte) = seq.next_element()? {
            bytes.push(byte);
        }
        Ok(ByteBuf(bytes))
    }
}

macro_rules! samples {
    ($($item:item)*) => { $(#[derive(Serialize, Deserialize, Debug)] #[allow(dead_code)] $item)* };
}

samples! {
    struct Field<T> { v: T }
    struct Marked(#[serde(with = "bcs_proved::bytes")] Vec<u8>);
    struct Nothing;
    struct Id(u64);
    struct Of<T>(T);
    struct Pair(u8, bool);
    struct Point { x: u8, y: u16 }
    struct Renamed { #[serde(rename = "y")] x: u16, #[serde(rename = "x")] y: u8 }
    struct Larger { x: u8, y: u16, z: f64 }
    struct Smaller { x: u8, #[serde(skip)] y: u16 }
    /// With the types of a tuple's elements, in their order.
    struct Positional { x: u8, y: bool }
    struct Flat<T> { x: u8, #[serde(flatten)] rest: T }
    struct Y<T> { y: T }
    #[derive(PartialEq, Eq, PartialOrd, Ord)]
    enum Shape { Dot, Circle(u64), #[serde(rename = "Box")] Pair(u8, u8), Named { a: u8 } }
    enum Less { Dot }
    /// The variants of the registry's enum with other payloads, and some that it doesn't have.
    enum Other {
        #[serde(rename = "Dot")]
        DotOfUnit(()),
        #[serde(rename = "Dot")]
        DotOfOne(u8),
        Circle,
        #[serde(rename = "Box")]
        Fields { a: u8 },
        #[serde(rename = "Box")]
        Longer(u8, u8, u8),
        Named(u8, u8),
        #[serde(rename = "some")]
        Some(u8),
        #[serde(rename = "c0de")]
        Digits,
        Triangle { a: u8 },
        Line(u8, u8),
    }
    #[serde(tag = "Circle")]
    enum Tagged { Dot { x: u8 } }
    #[serde(untagged)]
    enum Untagged { Number(u64), Text(String) }
}

/// A struct that has a field twice.
struct Twice;

impl Serialize for Twice {
    fn serialize<S: Serializer>(&self, serializer: S) -> Result<S::Ok, S::Error> {
        let mut fields = serializer.serialize_struct("Point", 3)?;
        fields.serialize_field("x", &1_u8)?;
        fields.serialize_field("y", &2_u16)?;
        fields.serialize_field("y", &3_u16)?;
        fields.end()
    }
}

/// A map that has a key, a value or both as often as it likes.
struct Calls(&'static [(Option<&'static str>, Option<u8>)]);

impl Serialize for Calls {
    fn serialize<S: Serializer>(&self, serializer: S) -> Result<S::Ok, S::Error> {
        let mut map = serializer.serialize_map(None)?;
        for (key, value) in self.0 {
            key.map_or(Ok(()), |key| map.serialize_key(key))?;
            value.map_or(Ok(()), |value| map.serialize_value(&value))?;
        }
        map.end()
    }
}

/// A type that drops the error of its first part, and goes on.
struct GoesOn(&'static str);

impl Serialize for GoesOn {
    fn serialize<S: Serializer>(&self, serializer: S) -> Result<S::Ok, S::Error> {
        match self.0 {
            "list" => {
                let mut items = serializer.serialize_seq(None)?;
                let _ = items.serialize_element(&7_u64);
                items.serialize_element(&2_u8)?;
                items.end()
            }
            "tuple" => {
                let mut items = serializer.serialize_tuple(2)?;
                items.serialize_element(&1_u8)?;
                let _ = items.serialize_element(&300_u16);
                items.serialize_element(&2_u8)?;
                items.end()
            }
            "struct" => {
                let mut fields = serializer.serialize_struct("Point", 2)?;
                fields.serialize_field("x", &1_u8)?;
                let _ = fields.serialize_field("y", "a");
                fields.end()
            }
            _ => {
                let mut map = serializer.serialize_map(None)?;
                map.serialize_key("x")?;
                let _ = map.serialize_value(&7_u64);
                map.serialize_value(&7_u8)?;
                map.end()
            }
        }
    }
}

/// A type that reads the first element and leaves the rest.
#[derive(Debug)]
struct First;

impl<'de> Deserialize<'de> for First {
    fn deserialize<D: Deserializer<'de>>(deserializer: D) -> Result<First, D::Error> {
        deserializer.deserialize_any(First)
    }
}

impl<'de> Visitor<'de> for First {
    type Value = First;

    fn expecting(&self, f: &mut fmt::Formatter) -> fmt::Result {
        f.write_str("elements")
    }

    fn visit_seq<A: SeqAccess<'de>>(self, mut seq: A) -> Result<First, A::Error> {
        seq.next_element::<IgnoredAny>()?;
        Ok(First)
    }

    fn visit_map<A: MapAccess<'de>>(self, mut map: A) -> Result<First, A::Error> {
        map.next_entry::<IgnoredAny, IgnoredAny>()?;
        Ok(First)
    }
}

/// A type that reads names and keys, and no values.
#[derive(Debug)]
struct Keys;

impl<'de> Deserialize<'de> for Keys {
    fn deserialize<D: Deserializer<'de>>(deserializer: D) -> Result<Keys, D::Error> {
        deserializer.deserialize_map(Keys)
    }
}

impl<'de> Visitor<'de> for Keys {
    type Value = Keys;

    fn expecting(&self, f: &mut fmt::Formatter) -> fmt::Result {
        f.write_str("keys")
    }

    fn visit_map<A: MapAccess<'de>>(self, mut map: A) -> Result<Keys, A::Error> {
        while map.next_key::<IgnoredAny>()?.is_some() {}
        Ok(Keys)
    }
}

/// The bytes of a value: alone, in a field, or in a list.
fn encode<T: Serialize>(registry: &Registry, format: &Format, place: &str, value: T) -> Result<Vec<u8>, Error> {
    match place {
        "field" => registry.encode(format, &Field { v: &value }),
        "item" => registry.encode(format, &[&value]),
        _ => registry.encode(format, &value),
    }
}

/// What bytes are as a type, as it prints for debugging: alone, or in a field.
fn decode<T: DeserializeOwned + Debug>(
    registry: &Registry,
    format: &Format,
    place: &str,
    data: &[u8],
) -> Result<String, Error> {
    match place {
        "field" => registry.decode::<Field<T>>(format, data).map(|field| format!("{:?}", field.v)),
        _ => registry.decode::<T>(format, data).map(|value| format!("{value:?}")),
    }
}

macro_rules! values {
    ($($value:expr,)*) => {
        /// The bytes of the value with this name.
        pub fn encoded(registry: &Registry, format: &Format, name: &str, place: &str) -> Result<Vec<u8>, Error> {
            match name {
                $(stringify!($value) => encode(registry, format, place, $value),)*
                _ => panic!("no value is called {name}"),
            }
        }

        /// The names of all values.
        #[allow(dead_code)]
        pub const VALUES: &[&str] = &[$(stringify!($value)),*];
    };
}

macro_rules! types {
    ($($type:ty,)*) => {
        /// What bytes are as the type with this name.
        pub fn decoded(registry: &Registry, format: &Format, name: &str, place: &str, data: &[u8]) -> Result<String, Error> {
            match name {
                $(stringify!($type) => decode::<$type>(registry, format, place, data),)*
                _ => panic!("no type is called {name}"),
            }
        }

        /// The names of all types.
        #[allow(dead_code)]
        pub const TYPES: &[&str] = &[$(stringify!($type)),*];
    };
}

values! {
    true, false, -1_i8, i8::MAX, -300_i16, 300_i16, -70_000_i32, 7_i32, i64::MIN, i64::MAX, i128::MIN, i128::MAX, -1_i128, -129_i128,
    0_u8, u8::MAX, u16::MAX, u32::MAX, 5000_u64, u64::MAX, u128::MAX, 1_u128 << 64, 7_u128, NonZeroU64::MAX,
    1.0_f32, 5000.0_f64, u64::MAX as f64, f64::NAN, f64::INFINITY, 'x', '7',
    "bob", String::from("bob"), "\"\\\n\u{1f}é", "12", "cafe", "Dot", "",
    ByteBuf(vec![0xab, 0xcd]), ByteBuf(vec![0x88, 0x13, 0, 0, 0, 0, 0, 0]), ByteBuf(vec![]), Bytes(vec![0xab, 0xcd]), Bytes([0xab, 0xcd]),
    Marked(vec![0xab, 0xcd]), Hex("abCD"), Hex(String::from("ABcd")), Hex("0"), Hex("0x01"), Hex("zz"), Hex("0 "), Hex("+1"), Hex("éé"),
    None::<u8>, Some(7_u8), Some(None::<u8>), Some(Some(7_u8)), Some(7_u16), Some(()), Some(true),
    (), Nothing, PhantomData::<u8>, Of(()), Of(Of(5000_u64)), Box::new(Cell::new(true)),
    vec![1_u16, 2], [1_u16, 2], (7_u8, true), Pair(7, true), vec![1_u8, 2], vec![1_u8, 2, 255], BTreeSet::from([1_u8, 2]),
    BinaryHeap::from([1_u8]).into_sorted_vec(), [Of(1_u8), Of(2)], [1_u8, 2, 255], Vec::<u64>::new(), (7_u8, true, 9_u8), vec![("a", 1_u8)],
    vec![vec![1_u8], vec![2, 3]], vec![String::from("x")], vec![-1_i8, 2], [0_u8; 32],
    BTreeMap::from([("a", 1_u8)]), BTreeMap::from([("aa", 1_u8), ("b", 2)]), BTreeMap::from([("x", 1_u8), ("y", 2)]),
    BTreeMap::from([(7_u8, true)]), BTreeMap::from([(7_u8, 1_u8)]), BTreeMap::from([(true, true)]), BTreeMap::from([('x', 1_u8), ('y', 2)]),
    BTreeMap::from([((), true)]), BTreeMap::from([(Some("x"), 1_u8)]), BTreeMap::<u8, u8>::new(),
    Calls(&[(Some("x"), Some(1)), (Some("x"), Some(1))]), Calls(&[(None, Some(1))]), Calls(&[(Some("x"), None)]),
    Calls(&[(Some("x"), None), (Some("y"), Some(1))]), Calls(&[(Some("x"), Some(1)), (None, Some(2))]),
    Point { x: 1, y: 2 }, Renamed { x: 2, y: 1 }, Larger { x: 1, y: 2, z: 3.0 }, Smaller { x: 1, y: 2 }, Y { y: true }, Twice,
    Flat { x: 1, rest: Y { y: 2_u16 } }, Flat { x: 1, rest: BTreeMap::from([("y", 2_u8)]) }, Flat { x: 1, rest: BTreeMap::from([("y", 2_u64)]) },
    Flat { x: 1, rest: Point { x: 9, y: 2 } }, Flat { x: 1, rest: Y { y: 2.0_f64 } },
    Shape::Dot, Shape::Circle(7), Shape::Pair(1, 2), Shape::Named { a: 7 }, Other::DotOfUnit(()), Other::DotOfOne(7), Other::Circle,
    Other::Longer(1, 2, 3), Other::Fields { a: 7 }, Other::Named(1, 2), Other::Some(7), Other::Digits, Other::Triangle { a: 7 },
    Other::Line(1, 2), Tagged::Dot { x: 7 }, Untagged::Number(7), Untagged::Text(String::from("bob")), Ok::<u8, u8>(7),
    Value::Null, json!(true), json!(7), json!(-7), json!(7.0), json!({"x": 1, "y": 2}), json!({"some": 7}),
    GoesOn("list"), GoesOn("tuple"), GoesOn("struct"), GoesOn("map"),
}

types! {
    bool, u8, u16, u32, u64, u128, i8, i16, i32, i64, i128, NonZeroU32, f32, f64, char, String, Box<str>, ByteBuf, Bytes, Bytes<[u8; 1]>, Hex,
    Marked, Vec<u8>, BTreeSet<u8>, [u8; 1], [u8; 2], Option<u8>, Option<Option<u8>>, Option<()>, (), Nothing, PhantomData<u8>, Id, Vec<u64>,
    [u16; 2], [u16; 3], [u16; 1], (u8,), (u8, bool), Pair, Vec<(String, u8)>, Vec<Vec<u8>>, BTreeMap<String, u16>, BTreeMap<String, u8>,
    BTreeMap<u8, bool>, BTreeMap<char, u8>, BTreeMap<u8, u8>, BTreeMap<Shape, u8>, Point, Positional, Flat<Y<u16>>, Shape, Less, Other, Untagged,
    Value, IgnoredAny, First, Keys,
}
