//! What `decode` returns, `encode` turns into the same bytes, for each type at each format: nothing is lost in a flattened `Option`
//! or an untagged enum, which don't report what their contents reject.
#![cfg(feature = "serde_json")]

use bcs_proved::{Bytes, Error, ErrorKind, Hex, Registry};
use common::bytes;
use serde::de::DeserializeOwned;
use serde::{Deserialize, Serialize};
use serde_json::Value;
use std::collections::BTreeMap;
use std::fmt::Debug;

mod common;

/// Formats, each with the bytes of its values.
const FORMATS: &[(&str, &[&str])] = &[
    (r#""UNIT""#, &[""]),
    (r#""BOOL""#, &["01"]),
    (r#""U8""#, &["07", "ff"]),
    (r#""U32""#, &["07000000", "ffffffff"]),
    (r#""U64""#, &["0700000000000000", "2c01000000000000", "ffffffffffffffff"]),
    (r#""I64""#, &["0700000000000000", "2c01000000000000", "f9ffffffffffffff"]),
    (r#""STR""#, &["00", "0141", "03446f74"]),
    (r#""BYTES""#, &["00", "0141", "020708"]),
    (r#"{"SEQ":"U8"}"#, &["00", "020708"]),
    (r#"{"SEQ":"U64"}"#, &["00", "010700000000000000"]),
    (r#"{"SEQ":"STR"}"#, &["00", "010141"]),
    (r#"{"TUPLE":["U64","U64"]}"#, &["07000000000000000800000000000000"]),
    (r#"{"OPTION":"U64"}"#, &["00", "010700000000000000"]),
    (r#"{"OPTION":"STR"}"#, &["00", "010141"]),
    (r#"{"MAP":{"KEY":"STR","VALUE":"U64"}}"#, &["00", "0105636f756e740700000000000000"]),
    (r#"{"TYPENAME":"Coin"}"#, &["0700000000000000"]),
    (r#"{"TYPENAME":"Shape"}"#, &["00", "010700000000000000"]),
];

fn registry(format: &str) -> Registry {
    let coin = r#""Coin":{"STRUCT":[{"count":"U64"}]}"#;
    let shape = r#""Shape":{"ENUM":{"0":{"Dot":"UNIT"},"1":{"Circle":{"NEWTYPE":"U64"}}}}"#;
    Registry::read(format!(r#"{{"S":{{"STRUCT":[{{"a":"U8"}},{{"b":{format}}}]}},{coin},{shape}}}"#)).unwrap()
}

#[derive(Serialize, Deserialize, Debug, PartialEq)]
struct Flat<T> {
    a: u8,
    #[serde(flatten)]
    rest: T,
}

#[derive(Serialize, Deserialize, Debug, PartialEq)]
struct Rest<T> {
    b: T,
}

#[derive(Serialize, Deserialize, Debug, PartialEq)]
#[serde(untagged)]
enum Either<L, R> {
    Left(L),
    Right(R),
}

#[derive(Serialize, Deserialize, Debug, PartialEq)]
struct Nothing;

#[derive(Serialize, Deserialize, Debug, PartialEq)]
struct Coin {
    count: u64,
}

#[derive(Serialize, Deserialize, Debug, PartialEq)]
struct Empty {}

#[derive(Serialize, Deserialize, Debug, PartialEq)]
enum Shape {
    Dot,
    Circle(u64),
}

/// Calls a function for each of these types.
macro_rules! with_each {
    ($ask:ident: $($type:ty),*) => { $($ask::<$type>(stringify!($type));)* };
}

/// The same for each pair of the type with these.
macro_rules! with_each_pair {
    ($ask:ident: $($left:ty),*) => {
        $(with_each_pair!(@ $ask $left: u8, u64, i64, char, String, (), Bytes, Vec<u64>, Option<u64>, Coin, Shape);)*
    };
    (@ $ask:ident $left:ty: $($right:ty),*) => {
        $($ask::<Either<$left, $right>>(concat!(stringify!($left), " or ", stringify!($right)));)*
    };
}

/// Decodes the values of each format, and tells what came of each.
fn with_each_value<T: DeserializeOwned>(mut tell: impl FnMut(&Registry, &str, &[u8], Result<T, Error>)) {
    for (format, values) in FORMATS {
        let registry = registry(format);
        for digits in *values {
            let data = bytes(&format!("09{digits}"));
            tell(&registry, format, &data, registry.decode("S", &data));
        }
    }
}

fn is_rejected_there(error: &Error, told: &str) {
    assert_eq!((error.kind(), error.reason()), (ErrorKind::Value, Some("WrongType")), "{told}: {error}");
    assert!(error.at().unwrap().starts_with("/b"), "{told}: {error}");
}

/// An `Option` of what is flattened is `Some` of what is accepted without it, and rejects the rest.
fn is_as_strict_in_an_option<T: Serialize + DeserializeOwned + PartialEq + Debug>(name: &str) {
    with_each_value::<Flat<Option<Rest<T>>>>(|registry, format, data, optional| {
        let told = format!("{name} at {format}: {data:?}");
        match (registry.decode::<Flat<Rest<T>>>("S", data), optional) {
            (Ok(required), Ok(optional)) => {
                assert_eq!(Some(&required.rest), optional.rest.as_ref(), "{told}");
                assert_eq!(registry.encode("S", &optional), registry.encode("S", &required), "{told}");
            }
            (Err(_), Err(error)) => is_rejected_there(&error, &told),
            (required, optional) => panic!("{told}: {required:?}, and in an Option {optional:?}"),
        }
    });
}

#[test]
fn flattened_options_lose_nothing() {
    with_each!(is_as_strict_in_an_option: bool, u8, u16, u32, u64, i16, i64, f32, f64, char, String, (), Nothing, Bytes, Hex,
        Vec<u8>, Vec<u64>, Vec<String>, [u8; 2], (u64, u64), Option<u64>, Option<String>, BTreeMap<String, u64>, Coin, Shape, Value);
}

#[derive(Serialize, Deserialize, Debug, PartialEq)]
struct Halves<B, C> {
    b: B,
    c: C,
}

/// What a flattened type is of two fields `b` and `c`, or where it is rejected and why.
fn told<T: DeserializeOwned + Debug>() -> String {
    let registry = Registry::read(r#"{"S":{"STRUCT":[{"a":"U8"},{"b":"U64"},{"c":"STR"}]}}"#).unwrap();
    match registry.decode::<Flat<T>>("S", bytes("0907000000000000000141")) {
        Ok(value) => format!("{:?}", value.rest),
        Err(error) => format!("{} {}", error.at().unwrap(), error.message()),
    }
}

/// Fields that a type has are never left out. Those of no type are, as always with `serde`.
#[test]
fn fields_are_left_out_by_name_alone() {
    assert_eq!(told::<Option<Halves<u64, String>>>(), r#"Some(Halves { b: 7, c: "A" })"#);
    assert_eq!(told::<Option<Coin>>(), "None");
    assert_eq!(told::<Option<Rest<u64>>>(), "Some(Rest { b: 7 })");
    assert_eq!(told::<Option<Rest<Either<String, u64>>>>(), "Some(Rest { b: Right(7) })");
    assert_eq!(told::<Option<Rest<Either<String, Value>>>>(), "Some(Rest { b: Right(Number(7)) })");
    assert_eq!(told::<Option<Halves<String, String>>>(), "/b U64 takes an integer, not a string");
    assert_eq!(told::<Option<Halves<u64, u64>>>(), "/c STR takes a string, not an integer");
    assert_eq!(told::<Option<Halves<Either<String, u64>, bool>>>(), "/c STR takes a string, not a bool");
    assert_eq!(told::<Option<BTreeMap<String, u64>>>(), "/c STR takes a string, not an integer");
    assert_eq!(told::<Either<Rest<u64>, Empty>>(), "Left(Rest { b: 7 })");
    assert_eq!(told::<Either<Rest<String>, Empty>>(), "/b U64 takes an integer, not a string");
    assert_eq!(told::<Either<Rest<String>, Rest<u64>>>(), "Right(Rest { b: 7 })");
}

#[derive(Deserialize, Debug)]
#[allow(dead_code, reason = "it is printed")]
struct Part<T> {
    b: u64,
    d: T,
}

/// A field that is right is lost, too, if the type has another that isn't there.
#[test]
fn options_take_all_of_their_fields() {
    assert_eq!(told::<Option<Part<u64>>>(), "/b U64 takes an integer, not a type that leaves it out");
    assert_eq!(told::<Option<Part<Option<u64>>>>(), "Some(Part { b: 7, d: None })");
}

/// What is decoded can be encoded, whatever the variant. (Wider integers can only be decoded, so these formats are left out.)
fn comes_back<T: Serialize + DeserializeOwned + Debug>(name: &str) {
    with_each_value::<Flat<T>>(|registry, format, data, decoded| {
        let told = format!("{name} at {format}: {data:?}");
        match decoded {
            Ok(value) if !format.contains("U8") && !format.contains("U32") => {
                assert_eq!(registry.encode("S", &value).as_deref(), Ok(data), "{told}: {value:?}");
            }
            Ok(_) => {}
            // (`serde` doesn't say where no variant has a value)
            Err(error) if error.message().starts_with("data did not match any variant") => {}
            Err(error) => is_rejected_there(&error, &told),
        }
    });
}

fn comes_back_as_a_field<T: Serialize + DeserializeOwned + Debug>(name: &str) {
    comes_back::<Rest<T>>(name);
}

#[test]
fn untagged_enums_choose_what_can_be_encoded() {
    with_each_pair!(comes_back_as_a_field: u8, u64, i64, char, String, (), Bytes, Vec<u64>, Option<u64>, Coin, Shape);
}
