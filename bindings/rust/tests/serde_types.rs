//! Values of `serde` types as bytes, and back. tests/rows/values/rust.rows has each type at every format.
#![cfg(feature = "serde_json")]

use bcs_proved::{ErrorKind, Hex, Registry};
use serde::de::{Deserializer, IgnoredAny, MapAccess, SeqAccess, Visitor};
use serde::ser::Serializer;
use serde::{Deserialize, Serialize};
use std::collections::BTreeMap;
use std::fmt;
use std::net::Ipv4Addr;

mod common;
use common::{bytes, plain};

#[derive(Serialize, Deserialize, Debug, PartialEq)]
struct Pay<A> {
    to: String,
    amount: A,
    memo: Option<Hex>,
}

#[test]
fn a_sample_of_each_type() {
    let registry =
        Registry::read(r#"{"Pay":{"STRUCT":[{"to":"STR"},{"amount":"U64"},{"memo":{"OPTION":"BYTES"}}]}}"#).unwrap();
    let pay = Pay { to: "bob".into(), amount: 7_u64, memo: Some(Hex("07".into())) };
    let data = bytes("03626f620700000000000000010107");
    assert_eq!(registry.encode("Pay", &pay).unwrap(), data);
    assert_eq!(registry.decode::<Pay<u64>>("Pay", &data).unwrap(), pay);
    assert_eq!(registry.decode::<Pay<u128>>("Pay", &data).unwrap().amount, 7);
    let error = registry.decode::<Pay<u32>>("Pay", &data).unwrap_err();
    assert_eq!(error.to_string(), "refused: WrongType at /amount: u32 doesn't hold every U64");
    let error = registry.encode("Pay", &Pay { amount: 7.5, ..pay_of() }).unwrap_err();
    assert_eq!(error.to_string(), "refused: WrongType at /amount: U64 takes an integer, not an f64");
}

fn pay_of<A: Default>() -> Pay<A> {
    Pay { to: String::new(), amount: A::default(), memo: None }
}

/// A type that has a binary form is written by it, and not by the text for people.
#[test]
fn addresses_are_binary() {
    let (four, address) = (r#"{"TUPLEARRAY":{"CONTENT":"U8","SIZE":4}}"#, Ipv4Addr::new(1, 2, 255, 0));
    assert_eq!(plain().encode(four, &address), Ok(vec![1, 2, 255, 0]));
    assert_eq!(plain().decode(four, [1, 2, 255, 0]), Ok(address));
    let error = plain().encode(r#""STR""#, &address).unwrap_err();
    assert_eq!(error.message(), "STR takes a string, not a tuple");
    assert_eq!(plain().decode::<Ipv4Addr>(r#""STR""#, b"\x071.2.3.4").unwrap_err().kind(), ErrorKind::Value);
}

#[derive(Deserialize, Debug, PartialEq)]
enum Shape {
    Dot,
    Circle(u64),
    Rest(u8, u16),
    Named { side: u16 },
}

/// The same variants with other payloads.
#[derive(Deserialize, Debug)]
#[allow(dead_code, reason = "it is printed")]
enum Other {
    Dot(u8),
    Circle,
    Rest(u8),
    Named(u8, u16),
}

/// Fewer variants than the registry has.
#[derive(Deserialize, Debug, PartialEq)]
enum Less {
    Dot,
}

#[test]
fn each_payload_comes_back() {
    let text = r#"{"Shape":{"ENUM":{"0":{"Dot":"UNIT"},"1":{"Circle":{"NEWTYPE":"U64"}},"2":{"Rest":{"TUPLE":["U8","U16"]}},
        "3":{"Named":{"STRUCT":[{"side":"U16"}]}}}}}"#;
    let registry = Registry::read(text).unwrap();
    let rows = [
        ("00", Shape::Dot, "/Dot"),
        ("010700000000000000", Shape::Circle(7), "/Circle"),
        ("02010200", Shape::Rest(1, 2), "/Rest"),
        ("030102", Shape::Named { side: 513 }, "/Named"),
    ];
    for (digits, value, pointer) in rows {
        assert_eq!(registry.decode("Shape", bytes(digits)), Ok(value), "{digits}");
        let error = registry.decode::<Other>("Shape", bytes(digits)).unwrap_err();
        assert_eq!((error.kind(), error.at()), (ErrorKind::Value, Some(pointer)), "{error}");
    }
    assert_eq!(registry.decode("Shape", [0]), Ok(Less::Dot));
    let error = registry.decode::<String>("Shape", [0]).unwrap_err();
    assert_eq!(error.message(), "ENUM takes a variant, not a string");
    let error = registry.decode::<Less>("Shape", bytes("010700000000000000")).unwrap_err();
    assert!(error.to_string().contains("unknown variant `Circle`"), "{error}");
}

/// A type that reads the first element, or names and keys, and leaves the rest.
#[derive(Debug)]
struct Part<const KEYS: bool>;

impl<'de, const KEYS: bool> Deserialize<'de> for Part<KEYS> {
    fn deserialize<D: Deserializer<'de>>(deserializer: D) -> Result<Self, D::Error> {
        deserializer.deserialize_any(Part)
    }
}

impl<'de, const KEYS: bool> Visitor<'de> for Part<KEYS> {
    type Value = Self;

    fn expecting(&self, f: &mut fmt::Formatter) -> fmt::Result {
        f.write_str("elements")
    }

    fn visit_seq<A: SeqAccess<'de>>(self, mut seq: A) -> Result<Self, A::Error> {
        seq.next_element::<IgnoredAny>()?;
        Ok(Part)
    }

    fn visit_map<A: MapAccess<'de>>(self, mut map: A) -> Result<Self, A::Error> {
        while KEYS && map.next_key::<IgnoredAny>()?.is_some() {}
        if !KEYS {
            map.next_entry::<IgnoredAny, IgnoredAny>()?;
        }
        Ok(Part)
    }
}

#[test]
fn elements_that_are_left_are_an_error() {
    let registry = Registry::read(r#"{"Point":{"STRUCT":[{"x":"U8"},{"y":"U8"}]}}"#).unwrap();
    let map = r#"{"MAP":{"KEY":"U8","VALUE":"BOOL"}}"#;
    for (format, data) in [(map, &[2, 7, 1, 8, 0][..]), ("Point", &[7, 8])] {
        let error = registry.decode::<Part<false>>(format, data).unwrap_err();
        assert!(error.message().starts_with("the type takes 1 of 2 elements"), "{error}");
        let error = registry.decode::<Part<true>>(format, data).unwrap_err();
        assert!(error.message().starts_with("the type takes 0 of 2 elements"), "{error}");
    }
    let error = registry.decode::<Part<false>>(r#"{"SEQ":"U8"}"#, [2, 7, 8]).unwrap_err();
    assert!(error.message().starts_with("the type takes 1 of 2 elements"), "{error}");
    registry.decode::<IgnoredAny>("Point", [7, 8]).unwrap();
}

/// What is rejected for itself names the format, too.
#[test]
fn errors_of_types_name_the_format() {
    let error = plain().decode::<std::num::NonZeroU8>(r#""U8""#, [0]).unwrap_err();
    assert!(error.message().ends_with(" (the format is U8)"), "{error}");
}

/// A type's own error is reported with its pointer.
struct Fails;

impl Serialize for Fails {
    fn serialize<S: Serializer>(&self, _: S) -> Result<S::Ok, S::Error> {
        Err(serde::ser::Error::custom("no value today"))
    }
}

#[test]
fn pointers_lead_through_everything() {
    let text = r#"{"S":{"STRUCT":[{"a/~":{"SEQ":{"OPTION":{"TYPENAME":"E"}}}}]},
        "E":{"ENUM":{"0":{"V":{"STRUCT":[{"m":{"MAP":{"KEY":"U8","VALUE":{"TUPLE":["U8","U64"]}}}}]}}}}}"#;
    let registry = Registry::read(text).unwrap();
    #[derive(Serialize)]
    struct S<T> {
        #[serde(rename = "a/~")]
        list: Vec<Option<E<T>>>,
    }
    #[derive(Serialize)]
    enum E<T> {
        V { m: BTreeMap<u8, (u8, T)> },
    }
    fn value<T>(last: T) -> S<T> {
        S { list: vec![None, Some(E::V { m: BTreeMap::from([(3, (7, last))]) })] }
    }
    assert_eq!(registry.encode("S", &value(5_u64)).unwrap(), bytes("020001000103070500000000000000"));
    let pointer = "/a~1~0/1/some/V/m/0/1/1";
    let error = registry.encode("S", &value(Hex("01"))).unwrap_err();
    assert_eq!(error.to_string(), format!("refused: WrongType at {pointer}: U64 takes an integer, not bytes"));
    let error = registry.encode("S", &value(Fails)).unwrap_err();
    assert_eq!(error.to_string(), format!("refused: WrongType at {pointer}: no value today"));
    assert_eq!((error.kind(), error.at()), (ErrorKind::Value, Some(pointer)));
    let error = registry.encode("S", &value(5_i32)).unwrap_err();
    assert_eq!(error.to_string(), format!("refused: WrongType at {pointer}: U64 doesn't hold every i32"));
}
