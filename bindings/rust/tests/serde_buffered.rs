//! What `serde` reads into buffers: flattened fields, untagged and internally tagged enums. Their types are checked, too.
#![cfg(feature = "serde_json")]

use bcs_proved::{Bytes, ErrorKind, Hex, Registry};
use serde::de::{DeserializeOwned, Deserializer};
use serde::{Deserialize, Serialize};
use serde_json::{Value, json};
use std::cell::Cell;
use std::collections::{BTreeMap, BTreeSet};
use std::fmt::Debug;
use std::num::NonZeroU8;

mod common;
use common::bytes;

/// A struct whose second field has this format, and which is flattened in the types below.
fn registry(format: &str) -> Registry {
    let shape = r#""Shape":{"ENUM":{"0":{"Dot":"UNIT"},"1":{"Circle":{"NEWTYPE":"U64"}}}}"#;
    let coins = r#""Byte":{"NEWTYPESTRUCT":"U8"},"Coin":{"STRUCT":[{"value":"U64"}]},"Coins":{"STRUCT":[{"fee":"U64"},{"amount":"U64"}]}"#;
    Registry::read(format!(r#"{{"S":{{"STRUCT":[{{"a":"U8"}},{{"b":{format}}}]}},{shape},{coins}}}"#)).unwrap()
}

#[derive(Serialize, Deserialize, Debug, PartialEq)]
struct Flat<T> {
    a: u8,
    #[serde(flatten)]
    rest: T,
}

#[derive(Serialize, Deserialize, Debug, PartialEq)]
struct Rest<T> {
    b: T,
}

#[derive(Serialize, Deserialize, Debug, PartialEq)]
#[serde(untagged)]
enum Either<L, R> {
    Left(L),
    Right(R),
}

#[derive(Serialize, Deserialize, Debug, PartialEq)]
enum Shape {
    Dot,
    Circle(u64),
}

fn flat<T>(b: T) -> Flat<Rest<T>> {
    Flat { a: 9, rest: Rest { b } }
}

/// Values that come and go, flattened.
fn comes_and_goes<T: Serialize + DeserializeOwned + PartialEq + Debug>(format: &str, value: T, digits: &str) {
    let (registry, value) = (registry(format), flat(value));
    let encoded = registry.encode("S", &value).unwrap();
    assert_eq!(encoded, bytes(&format!("09{digits}")), "{value:?}");
    assert_eq!(registry.decode("S", &encoded).as_ref(), Ok(&value));
}

#[test]
fn flattened_values_come_and_go() {
    comes_and_goes(r#""U64""#, u64::MAX, "ffffffffffffffff");
    comes_and_goes(r#""I64""#, i64::MIN, "0000000000000080");
    comes_and_goes(r#""U8""#, 255_u8, "ff");
    comes_and_goes(r#""STR""#, "7".to_owned(), "0137");
    comes_and_goes(r#""BYTES""#, Bytes(vec![7, 7]), "020707");
    comes_and_goes(r#""BYTES""#, Hex("0aff".to_owned()), "020aff");
    comes_and_goes(r#""BYTES""#, [7_u8, 7], "020707");
    comes_and_goes(r#"{"SEQ":"U8"}"#, vec![7_u8, 7], "020707");
    comes_and_goes(r#"{"SEQ":"U8"}"#, Bytes(vec![7, 7]), "020707");
    comes_and_goes(r#"{"OPTION":"U16"}"#, Some(7_u16), "010700");
    comes_and_goes(r#"{"TYPENAME":"Shape"}"#, Shape::Circle(7), "010700000000000000");
    comes_and_goes(r#"{"TYPENAME":"Shape"}"#, Shape::Dot, "00");
    comes_and_goes(r#""U64""#, Either::<u64, String>::Left(7), "0700000000000000");
    comes_and_goes(r#""U64""#, Either::<Value, f64>::Left(json!(7)), "0700000000000000");
    // (each number goes to the narrowest)
    comes_and_goes(r#""U64""#, Either::<u8, u64>::Left(7), "0700000000000000");
    comes_and_goes(r#""U64""#, Either::<u8, u64>::Right(1 << 60), "0000000000000010");
}

/// A type that can't have all values of the format, in a flattened field, with its rejection.
fn rejected<T: DeserializeOwned + Debug>(format: &str, digits: &str, message: &str) {
    let registry = registry(format);
    let error = registry.decode::<Flat<Rest<T>>>("S", bytes(&format!("09{digits}"))).expect_err(message);
    assert_eq!(
        (error.kind(), error.reason(), error.message()),
        (ErrorKind::Value, Some("WrongType"), message),
        "{format}"
    );
}

const SEVEN: &str = "0700000000000000";

#[test]
fn floats_are_rejected_and_not_rounded() {
    let (f64_at_u64, f32_at_u64) = ("U64 takes an integer, not an f64", "U64 takes an integer, not an f32");
    rejected::<f64>(r#""U64""#, "0100000000002000", f64_at_u64);
    rejected::<f64>(r#""U64""#, SEVEN, f64_at_u64);
    rejected::<f32>(r#""U64""#, SEVEN, f32_at_u64);
    rejected::<Option<f64>>(r#""U64""#, SEVEN, f64_at_u64);
    rejected::<f64>(r#""U8""#, "07", "U8 takes an integer, not an f64");
    rejected::<f64>(r#""I64""#, "ffffffffffffffff", "I64 takes an integer, not an f64");
    rejected::<Vec<f64>>(r#"{"SEQ":"U64"}"#, &format!("01{SEVEN}"), f64_at_u64);
    rejected::<BTreeMap<String, f64>>(r#"{"MAP":{"KEY":"STR","VALUE":"U64"}}"#, &format!("010161{SEVEN}"), f64_at_u64);
    rejected::<(f64, f64)>(r#""BYTES""#, "020707", "BYTES takes a u8 for each byte, not an f64");
    rejected::<Either<f64, String>>(r#""U64""#, SEVEN, f64_at_u64);
    rejected::<Either<String, f64>>(r#""U64""#, SEVEN, f64_at_u64);
    rejected::<Either<f64, Value>>(r#""U64""#, SEVEN, f64_at_u64);
    rejected::<Either<u64, f64>>(r#""I64""#, "f9ffffffffffffff", "I64 takes an integer, not an f64");
    rejected::<Either<Vec<f64>, String>>(r#"{"SEQ":"U64"}"#, &format!("01{SEVEN}"), f64_at_u64);
    // One float beside integers.
    let registry = registry(r#"{"TUPLE":["U64","U64","U64"]}"#);
    let input = bytes(&format!("09{}", SEVEN.repeat(3)));
    registry.decode::<Flat<Rest<(u64, u64, u64)>>>("S", &input).unwrap();
    assert_eq!(registry.decode::<Flat<Rest<(u64, u64, f64)>>>("S", &input).unwrap_err().message(), f64_at_u64);
    // Outside of a struct.
    let plain = Registry::read("{}").unwrap();
    let error = plain.decode::<Either<f64, String>>(r#""U64""#, bytes(SEVEN)).unwrap_err();
    assert_eq!((error.at(), error.message()), (Some(""), f64_at_u64));
    let error = plain.decode::<Vec<Either<bool, f64>>>(r#"{"SEQ":"U64"}"#, bytes(&format!("01{SEVEN}"))).unwrap_err();
    assert_eq!(error.message(), f64_at_u64);
}

#[test]
fn widths_are_rejected_by_their_type() {
    rejected::<u8>(r#""U64""#, SEVEN, "u8 doesn't hold every U64");
    rejected::<u64>(r#""I64""#, SEVEN, "u64 doesn't hold every I64");
    rejected::<i64>(r#""U64""#, SEVEN, "i64 doesn't hold every U64");
    rejected::<NonZeroU8>(r#""U16""#, "0700", "u8 doesn't hold every U16");
    rejected::<Vec<u8>>(r#"{"SEQ":"U16"}"#, "010700", "u8 doesn't hold every U16");
    rejected::<Bytes>(r#"{"SEQ":"U16"}"#, "010700", "SEQ takes a list, not bytes");
    rejected::<Either<u8, u16>>(r#""U64""#, SEVEN, "u8 doesn't hold every U64");
    // A number must be one that `encode` accepts, whichever variant has it.
    rejected::<Either<i64, u64>>(r#""U64""#, SEVEN, "i64 doesn't hold every U64");
    rejected::<Either<i64, u64>>(r#""U64""#, "ffffffffffffffff", "i64 doesn't hold every U64");
    rejected::<Either<char, u64>>(r#""I64""#, SEVEN, "u64 doesn't hold every I64");
    rejected::<Either<u16, u64>>(r#""U32""#, "07000000", "U32 doesn't hold every u64");
}

#[test]
fn bytes_are_no_list_and_no_string() {
    let message = "BYTES takes bytes, or Hex(…) for digits, not a list";
    rejected::<Vec<u8>>(r#""BYTES""#, "020707", message);
    rejected::<BTreeSet<u8>>(r#""BYTES""#, "020707", message);
    rejected::<Either<String, BTreeSet<u8>>>(r#""BYTES""#, "020707", message);
    let registry = registry(r#""BYTES""#);
    for digits in ["09020707", "0902ffff"] {
        let error = registry.decode::<Flat<Rest<String>>>("S", bytes(digits)).unwrap_err();
        assert_eq!(error.kind(), ErrorKind::Value, "{error}");
    }
}

/// A type that takes anything has every integer as it is.
#[test]
fn values_of_json_keep_their_integers() {
    let registry = registry(r#"{"TUPLE":["U64","I64","BYTES"]}"#);
    let input = bytes("09ffffffffffffffff0000000000000080020707");
    let expected = json!({"a": 9, "b": [u64::MAX, i64::MIN, [7, 7]]});
    assert_eq!(registry.decode::<Value>("S", &input), Ok(expected.clone()));
    let flat = registry.decode::<Flat<BTreeMap<String, Value>>>("S", &input).unwrap();
    assert_eq!(flat.rest["b"], expected["b"]);
}

#[derive(Deserialize, Debug, PartialEq)]
#[serde(tag = "b")]
enum Tagged<T> {
    Seven { a: T },
}

#[test]
fn tagged_enums_are_checked() {
    let (registry, input) = (registry(r#""STR""#), b"\x09\x05Seven");
    assert_eq!(registry.decode("S", input), Ok(Tagged::Seven { a: 9_u8 }));
    let error = registry.decode::<Tagged<f32>>("S", input).unwrap_err();
    assert_eq!(error.message(), "U8 takes an integer, not an f32");
}

thread_local! {
    static READINGS: Cell<usize> = const { Cell::new(0) };
}

/// An integer that counts how often it is read.
#[derive(Debug)]
struct Counted;

impl<'de> Deserialize<'de> for Counted {
    fn deserialize<D: Deserializer<'de>>(deserializer: D) -> Result<Counted, D::Error> {
        READINGS.set(READINGS.get() + 1);
        u8::deserialize(deserializer).map(|_| Counted)
    }
}

/// What a flattened value of a type is at a format, or where it is rejected and why.
fn told<T: DeserializeOwned + Debug>(format: &str, digits: &str) -> String {
    match registry(format).decode::<Flat<Rest<T>>>("S", bytes(&format!("09{digits}"))) {
        Ok(flat) => format!("{:?}", flat.rest.b),
        Err(error) => {
            assert_eq!(error.reason(), Some("WrongType"), "{error}");
            format!("{} {}", error.at().unwrap(), error.message())
        }
    }
}

/// Rows of a type, a format, bytes, and what is told of them.
macro_rules! rows {
    ($($type:ty, $format:expr, $digits:expr => $expected:expr;)*) => {
        $(assert_eq!(told::<$type>($format, $digits), $expected, "{} at {}", stringify!($type), $format);)*
    };
}

const STR: &str = r#""STR""#;
const BYTES: &str = r#""BYTES""#;
const SHAPE: &str = r#"{"TYPENAME":"Shape"}"#;
const PAY: &str = r#"{"TUPLE":["U64","U64"]}"#;
const COINS: &str = r#"{"TUPLE":[{"TYPENAME":"Coin"},{"TYPENAME":"Coin"}]}"#;
const NUMBERS: &str = r#"{"SEQ":"U64"}"#;
const NUMBERS_BY_TEXT: &str = r#"{"MAP":{"KEY":"STR","VALUE":"U8"}}"#;
const BYTES_BY_BYTE: &str = r#"{"MAP":{"KEY":"U8","VALUE":"U8"}}"#;
const PAIR: &str = "f4010000000000000300000000000000";

#[derive(Deserialize, Debug)]
#[allow(dead_code, reason = "it is printed")]
struct Fee<T = u64> {
    fee: T,
    amount: T,
}

/// Its words are those of another type.
#[derive(Deserialize, Debug)]
#[serde(expecting = "a tuple of size 2")]
#[allow(dead_code, reason = "it is printed")]
struct Disguised<T = u64> {
    fee: T,
    amount: T,
}

#[derive(Deserialize, Debug)]
#[allow(dead_code, reason = "it is printed")]
struct Coin<T> {
    value: T,
}

#[derive(Deserialize, Debug)]
#[allow(dead_code, reason = "it is printed")]
enum Letters {
    U,
    B(u8),
}

#[derive(Deserialize, Debug)]
#[serde(tag = "fee")]
#[allow(dead_code, reason = "it is printed")]
enum Tag {
    U { amount: u64 },
}

#[derive(Deserialize, Debug)]
struct Empty;

#[derive(Deserialize, Debug)]
#[serde(untagged)]
#[allow(dead_code, reason = "it is printed")]
enum Any {
    Pair(u64, u64),
    Named { fee: u64, amount: u64 },
    Number(u64),
    Text(String),
    Nothing,
}

#[derive(Deserialize, Debug)]
#[serde(untagged)]
#[allow(dead_code, reason = "it is printed")]
enum NamedFirst {
    Names(Vec<String>),
    Named { fee: u64, amount: u64 },
    Numbers(Vec<u64>),
}

#[test]
fn structs_are_no_lists_and_no_maps() {
    rows! {
        (u64, u64), PAY, PAIR => "(500, 3)";
        Fee, PAY, PAIR => "/b TUPLE takes a tuple, not a struct";
        Disguised, PAY, PAIR => "/b TUPLE takes a tuple, not a struct";
        Tag, r#"{"TUPLE":["STR","U64"]}"#, "01550300000000000000" => "/b TUPLE takes a tuple, not a struct";
        Fee, NUMBERS, &format!("02{PAIR}") => "/b SEQ takes a list, not a struct";
        Vec<u64>, NUMBERS, &format!("02{PAIR}") => "[500, 3]";
        Fee<u8>, BYTES, "020707" => "/b BYTES takes bytes, or Hex(…) for digits, not a struct";
        [u16; 2], BYTES, "020707" => "/b/0 BYTES takes a u8 for each byte, not a u16";
        (u8, u8), BYTES, "020707" => "(7, 7)";
        (u8, u16), BYTES, "020707" => "/b/1 BYTES takes a u8 for each byte, not a u16";
        (u8, f64), r#"{"SEQ":"U8"}"#, "020707" => "/b/1 U8 takes an integer, not an f64";
        [u16; 20], BYTES, &format!("14{}", "07".repeat(20)) => "/b/0 BYTES takes a u8 for each byte, not a u16";
        [u8; 20], BYTES, &format!("14{}", "07".repeat(20)) => format!("{:?}", [7; 20]);
        Either<f64, Vec<f64>>, NUMBERS, &format!("01{SEVEN}") => "/b/0 U64 takes an integer, not an f64";
        Fee<u8>, NUMBERS_BY_TEXT, "02036665650206616d6f756e7401" => "/b MAP takes a map, not a struct";
        BTreeMap<String, u8>, NUMBERS_BY_TEXT, "01015507" => r#"{"U": 7}"#;
        Fee<u8>, BYTES_BY_BYTE, "0200010102" => "/b MAP takes a map, not a struct";
        Disguised<u8>, BYTES_BY_BYTE, "0200010102" => "/b/0/0 U8 takes an integer, not a struct";
        Bytes, r#"{"SEQ":{"TYPENAME":"Byte"}}"#, "0107" => "/b SEQ takes a list, not bytes";
        Letters, BYTES_BY_BYTE, "010102" => "/b MAP takes a map, not an enum";
        Letters, NUMBERS_BY_TEXT, "01014207" => "/b MAP takes a map, not an enum";
        Empty, NUMBERS, "00" => "/b SEQ takes a list, not a unit struct";
        (), BYTES_BY_BYTE, "00" => "/b MAP takes a map, not ()";
        Coin<u64>, r#"{"TYPENAME":"Coin"}"#, SEVEN => "Coin { value: 7 }";
        (Coin<u64>, Coin<u64>), COINS, PAIR => "(Coin { value: 500 }, Coin { value: 3 })";
        (Coin<u64>, Coin<f64>), COINS, PAIR => "/b/1/value U64 takes an integer, not an f64";
        (u64, f64), NUMBERS, &format!("02{PAIR}") => "/b/1 U64 takes an integer, not an f64";
    }
}

#[test]
fn options_and_names_are_checked() {
    rows! {
        Option<u8>, r#""U8""#, "05" => "/b U8 takes an integer, not an Option";
        Option<u8>, r#"{"OPTION":"U8"}"#, "0105" => "Some(5)";
        Option<f64>, r#"{"OPTION":"U8"}"#, "0105" => "/b/some U8 takes an integer, not an f64";
        Option<char>, r#"{"OPTION":"STR"}"#, "010141" => "/b/some STR takes a string, not a char";
        Option<Option<u8>>, r#"{"OPTION":"U8"}"#, "0105" => "/b/some U8 takes an integer, not an Option";
        Option<Option<u8>>, r#"{"OPTION":{"OPTION":"U8"}}"#, "010105" => "Some(Some(5))";
        Option<u8>, r#""UNIT""#, "" => "/b UNIT takes (), not an Option";
        Option<()>, r#""UNIT""#, "" => "/b UNIT takes (), not an Option";
        (), r#""UNIT""#, "" => "()";
        Option<bool>, r#""BOOL""#, "01" => "/b BOOL takes a bool, not an Option";
        Option<String>, STR, "0155" => "/b STR takes a string, not an Option";
        Option<(u64, u64)>, PAY, PAIR => "/b TUPLE takes a tuple, not an Option";
        Option<Shape>, SHAPE, "00" => "/b ENUM takes a variant, not an Option";
        String, SHAPE, "00" => "/b ENUM takes a variant, not a string";
        BTreeMap<String, u64>, SHAPE, &format!("01{SEVEN}") => "/b ENUM takes a variant, not a map";
        Letters, STR, "0155" => "/b STR takes a string, not an enum";
        char, STR, "0141" => "/b STR takes a string, not a char";
        String, STR, "0141" => r#""A""#;
        std::net::Ipv4Addr, STR, "07312e312e312e31" => "/b STR takes a string, not an address of std::net, which is binary";
    }
}

/// The variants of an untagged enum that were tried before the value's, and those after it if another was.
#[test]
fn untagged_variants_are_checked() {
    rows! {
        Any, PAY, PAIR => "Pair(500, 3)";
        Any, r#""U64""#, SEVEN => "Number(7)";
        Any, STR, "0137" => r#"Text("7")"#;
        Any, r#""UNIT""#, "" => "Nothing";
        Any, r#"{"OPTION":"U8"}"#, "00" => "/b OPTION takes an Option, not a unit variant";
        Any, r#"{"TYPENAME":"Coins"}"#, PAIR => "Named { fee: 500, amount: 3 }";
        NamedFirst, r#"{"TYPENAME":"Coins"}"#, PAIR => "Named { fee: 500, amount: 3 }";
        NamedFirst, NUMBERS, &format!("02{PAIR}") => "/b SEQ takes a list, not a struct";
        NamedFirst, NUMBERS, &format!("01{SEVEN}") => "/b SEQ takes a list, not a struct";
        NamedFirst, r#"{"SEQ":"STR"}"#, "010155" => r#"Names(["U"])"#;
        Either<Option<u64>, String>, STR, "0137" => r#"Right("7")"#;
        Either<String, Letters>, STR, "0155" => r#"Left("U")"#;
        Either<Letters, String>, STR, "0155" => "/b STR takes a string, not an enum";
        Either<Letters, String>, STR, "0137" => "/b STR takes a string, not an enum";
    }
    let payment = Registry::read(
        r#"{"Pay":{"TUPLESTRUCT":["U64","U64"]},"Transfer":{"STRUCT":[{"to":"STR"},{"b":{"TYPENAME":"Pay"}}]}}"#,
    );
    let error = payment.unwrap().decode::<Flattened>("Transfer", bytes(&format!("03626f62{PAIR}"))).unwrap_err();
    assert_eq!(error.to_string(), "refused: WrongType at /b: TUPLE takes a tuple, not a struct");
}

/// Of a value with many parts the first of each format is checked.
#[test]
fn large_values_are_checked_by_format() {
    let format = format!(r#"{{"SEQ":{PAY}}}"#);
    let digits = format!("64{}", PAIR.repeat(100));
    assert!(told::<Vec<(u64, u64)>>(&format, &digits).starts_with("[(500, 3), (500, 3)"));
    assert_eq!(told::<Vec<Fee>>(&format, &digits), "/b/0 TUPLE takes a tuple, not a struct");
    assert_eq!(told::<Vec<(u64, f64)>>(&format, &digits), "/b/0/1 U64 takes an integer, not an f64");
    assert_eq!(told::<Vec<(u64, Option<u64>)>>(&format, &digits), "/b/0/1 U64 takes an integer, not an Option");
}

#[derive(Deserialize, Debug)]
#[allow(dead_code, reason = "it is printed")]
struct Flattened {
    to: String,
    #[serde(flatten)]
    common: Rest<Fee>,
}

/// Keys of flattened maps are strings, and what isn't in a buffer isn't lenient.
#[test]
fn names_are_strings() {
    let registry = registry(r#""U8""#);
    let error = registry.decode::<Flat<BTreeMap<char, u8>>>("S", [9, 7]).unwrap_err();
    assert_eq!(error.message(), "STRUCT takes a string for each field's name, not a char");
    assert_eq!(registry.decode("S", [9, 7]), Ok(Flat { a: 9, rest: BTreeMap::from([("b".to_owned(), 7_u8)]) }));
    let list = Registry::read("{}").unwrap();
    let input = bytes("01550300000000000000");
    let error = list.decode::<Tag>(r#"{"TUPLE":["STR","U64"]}"#, &input).unwrap_err();
    assert_eq!(error.message(), "TUPLE takes a tuple, not a struct");
    let zero = format!("{}{SEVEN}", "00".repeat(8));
    let error = registry.decode::<Tag>("Coins", bytes(&zero)).unwrap_err();
    assert_eq!((error.at(), error.message()), (Some("/fee"), "U64 takes an integer, not an enum"));
    let entries = bytes(&format!("0203666565{}06616d6f756e74{SEVEN}", "00".repeat(8)));
    let error = list.decode::<Tag>(r#"{"MAP":{"KEY":"STR","VALUE":"U64"}}"#, entries).unwrap_err();
    assert_eq!((error.at(), error.message()), (Some(""), "MAP takes a map, not a struct"));
}

/// A value is read once, once to list its parts, and up to three times for each part, of which a large value has one for each
/// format. (Where types rejected something, it is read up to three times more for each.)
#[test]
fn a_value_is_read_a_few_times() {
    let registry = registry(r#"{"SEQ":{"TUPLE":["U8","U16","BYTES"]}}"#);
    for (count, most) in [(1, 11), (2, 36), (120, 3 * 120 + 7)] {
        let input = [&[9, count][..], &[7, 1, 0, 0].repeat(count.into())].concat();
        READINGS.set(0);
        let flat: Flat<Rest<Vec<(Counted, u16, Bytes)>>> = registry.decode("S", input).unwrap();
        assert_eq!(flat.rest.b.len(), usize::from(count));
        assert!((2..=most).contains(&READINGS.get()), "{} for {count}", READINGS.get());
    }
}
