//! Values of serde_json in and out.
#![cfg(feature = "serde_json")]

use bcs_proved::{ErrorKind, Format, Registry, TextFault};
use serde::{Deserialize, Serialize};
use serde_json::{Value, json};
use std::collections::{BTreeMap, BinaryHeap, HashSet};

mod common;
use common::{example, example_bytes, example_registry, plain};

#[test]
fn transactions_come_and_go_as_values() {
    let registry = example_registry("aptos_registry");
    let value: Value = serde_json::from_str(&example("aptos_transfer.json")).unwrap();
    let normal: Value = serde_json::from_str(&example("aptos_transfer_normal.json")).unwrap();
    let bytes = registry.encode_json_value("RawTransaction", &value).unwrap();
    assert_eq!(bytes, example_bytes("aptos_transfer"));
    assert_eq!(registry.decode_json_value("RawTransaction", &bytes).unwrap(), normal);
}

#[test]
fn values_are_refused_as_texts_are() {
    let number = &Format::json(r#""U8""#);
    assert_eq!(plain().encode_json_value(number, &json!(256)).unwrap_err(), ErrorKind::Text(TextFault::BadNumber));
    assert_eq!(plain().encode_json_value(number, &json!(1.5)).unwrap_err(), ErrorKind::Text(TextFault::BadNumber));
    assert_eq!(plain().decode_json_value(number, []).unwrap_err().reason(), Some("EndOfInput"));
}

#[test]
fn a_registry_may_be_a_value() {
    let registry = Registry::read(json!({"Point": {"STRUCT": [{"x": "U8"}, {"y": "U8"}]}}).to_string()).unwrap();
    assert_eq!(registry.encode_json_value("Point", &json!({"y": 2, "x": 1})).unwrap(), [1, 2]);
}

#[derive(Serialize, Deserialize, Debug, PartialEq, Clone)]
struct Nothing;

#[derive(Serialize, Deserialize, Debug, PartialEq, Clone)]
struct Id(u64);

#[derive(Serialize, Deserialize, Debug, PartialEq, Clone)]
struct Pair(i128, bool);

#[derive(Serialize, Deserialize, Debug, PartialEq, Clone)]
enum Shape {
    Dot,
    Circle(u64),
    Rest(u8, u128),
    Named { side: u16 },
}

#[derive(Serialize, Deserialize, Debug, PartialEq, Clone)]
struct All {
    nothing: Nothing,
    id: Id,
    pair: Pair,
    shapes: Vec<Shape>,
    octets: Vec<u8>,
    four: [u8; 4],
    option: Option<Option<u64>>,
    none: Option<Id>,
    map: BTreeMap<u64, String>,
    tuple: (u8, i64, String),
    unit: (),
}

#[test]
fn types_of_serde_come_and_go() {
    let registry = Registry::read(
        json!({
            "Nothing": "UNITSTRUCT",
            "Id": {"NEWTYPESTRUCT": "U64"},
            "Pair": {"TUPLESTRUCT": ["I128", "BOOL"]},
            "Shape": {"ENUM": {
                "0": {"Dot": "UNIT"},
                "1": {"Circle": {"NEWTYPE": "U64"}},
                "2": {"Rest": {"TUPLE": ["U8", "U128"]}},
                "3": {"Named": {"STRUCT": [{"side": "U16"}]}},
            }},
            "All": {"STRUCT": [
                {"nothing": {"TYPENAME": "Nothing"}},
                {"id": {"TYPENAME": "Id"}},
                {"pair": {"TYPENAME": "Pair"}},
                {"shapes": {"SEQ": {"TYPENAME": "Shape"}}},
                {"octets": {"SEQ": "U8"}},
                {"four": {"TUPLEARRAY": {"CONTENT": "U8", "SIZE": 4}}},
                {"option": {"OPTION": {"OPTION": "U64"}}},
                {"none": {"OPTION": {"TYPENAME": "Id"}}},
                {"map": {"MAP": {"KEY": "U64", "VALUE": "STR"}}},
                {"tuple": {"TUPLE": ["U8", "I64", "STR"]}},
                {"unit": "UNIT"},
            ]},
        })
        .to_string(),
    )
    .unwrap();
    let mut all = All {
        nothing: Nothing,
        id: Id(u64::MAX),
        pair: Pair(i128::MIN, true),
        shapes: vec![Shape::Dot, Shape::Circle(1 << 60), Shape::Rest(7, u128::MAX), Shape::Named { side: 513 }],
        octets: vec![1, 2, 255],
        four: [1, 2, 3, 4],
        option: Some(Some(7)),
        none: None,
        map: BTreeMap::from([(2, "b".into()), (1, "12".into())]),
        tuple: (1, i64::MIN, "x".into()),
        unit: (),
    };
    let bytes = registry.encode("All", &all).unwrap();
    assert_eq!(registry.decode::<All>("All", &bytes).unwrap(), all);
    assert_eq!(registry.encode_json_value("All", &registry.decode_json_value("All", &bytes).unwrap()).unwrap(), bytes);
    all.option = Some(None);
    let bytes = registry.encode("All", &all).unwrap();
    assert_eq!(registry.decode::<All>("All", &bytes).unwrap().option, Some(None));
}

#[derive(Serialize)]
struct Note<T> {
    memo: T,
}

/// Values that look like others: what they are decides, and not how they look.
#[test]
fn nothing_depends_on_what_a_value_looks_like() {
    fn rejected<T: Serialize>(format: &str, memo: T, message: &str) {
        let registry = Registry::read(format!(r#"{{"Note":{{"STRUCT":[{{"memo":{format}}}]}}}}"#)).unwrap();
        let error = registry.encode("Note", &Note { memo }).unwrap_err();
        assert_eq!(error.to_string(), format!("refused: WrongType at /memo: {message}"));
    }
    let list = "SEQ takes a list, bytes, or Hex(…) for digits, not a string";
    rejected(r#"{"SEQ":"U8"}"#, "cafe", list);
    rejected(r#"{"SEQ":"U8"}"#, "hello", list);
    rejected(r#""BYTES""#, "1234", "BYTES takes bytes, or Hex(…) for digits, not a string");
    rejected(
        r#"{"TUPLEARRAY":{"CONTENT":"U8","SIZE":2}}"#,
        "AbCd",
        "TUPLEARRAY takes a list, bytes, or Hex(…) for digits, not a string",
    );
    let set = "BYTES takes bytes, or Hex(…) for digits, not a plain list, which may be a set: see bcs_proved::bytes";
    rejected(r#""BYTES""#, HashSet::from([1_u8, 2, 3]), set);
    rejected(r#""BYTES""#, BinaryHeap::from([1_u8, 2, 3]), set);
    rejected(r#""BYTES""#, vec![1_u8, 2, 3], set);
    rejected(r#""U64""#, "7", "U64 takes an integer, not a string");
    rejected(r#""U8""#, 7_u64, "U8 doesn't hold every u64");
    rejected(r#""U64""#, 7.0, "U64 takes an integer, not an f64");
    rejected(r#""STR""#, 7_u8, "STR takes a string, not a u8");
}

/// What comes out goes in, for each format by a type of Rust.
#[test]
fn what_comes_out_goes_in() {
    fn same<T: Serialize + serde::de::DeserializeOwned>(format: &str, digits: &str) {
        let shape = r#"{"Shape":{"ENUM":{"0":{"Dot":"UNIT"},"1":{"Circle":{"NEWTYPE":"U64"}},"2":{"Rest":{"TUPLE":["U8","U128"]}},
            "3":{"Named":{"STRUCT":[{"side":"U16"}]}}}},"Id":{"NEWTYPESTRUCT":"U64"},"Nothing":"UNITSTRUCT"}"#;
        let (registry, bytes) = (Registry::read(shape).unwrap(), common::bytes(digits));
        let value: T = registry.decode(format, &bytes).unwrap_or_else(|error| panic!("{format}: {error}"));
        assert_eq!(registry.encode(format, &value), Ok(bytes), "{format}");
    }
    same::<()>(r#""UNIT""#, "");
    same::<bool>(r#""BOOL""#, "01");
    same::<u8>(r#""U8""#, "ff");
    same::<u16>(r#""U16""#, "ffff");
    same::<u32>(r#""U32""#, "ffffffff");
    same::<u64>(r#""U64""#, "ffffffffffffffff");
    same::<u128>(r#""U128""#, "ffffffffffffffffffffffffffffffff");
    same::<i8>(r#""I8""#, "80");
    same::<i16>(r#""I16""#, "0080");
    same::<i32>(r#""I32""#, "00000080");
    same::<i64>(r#""I64""#, "0000000000000080");
    same::<i128>(r#""I128""#, "00000000000000000000000000000080");
    same::<String>(r#""STR""#, "0463616665");
    same::<bcs_proved::Bytes>(r#""BYTES""#, "02cafe");
    same::<bcs_proved::Hex>(r#""BYTES""#, "02cafe");
    same::<[u8; 2]>(r#""BYTES""#, "02cafe");
    same::<Vec<u8>>(r#"{"SEQ":"U8"}"#, "02cafe");
    same::<bcs_proved::Hex>(r#"{"SEQ":"U8"}"#, "02cafe");
    same::<[u8; 2]>(r#"{"TUPLEARRAY":{"CONTENT":"U8","SIZE":2}}"#, "cafe");
    same::<Vec<i16>>(r#"{"SEQ":"I16"}"#, "02cafeffff");
    same::<Option<Option<u8>>>(r#"{"OPTION":{"OPTION":"U8"}}"#, "0100");
    same::<BTreeMap<u16, String>>(r#"{"MAP":{"KEY":"U16","VALUE":"STR"}}"#, "02000100010000");
    same::<Vec<(u16, String)>>(r#"{"MAP":{"KEY":"U16","VALUE":"STR"}}"#, "02000100010000");
    same::<(u8, bool)>(r#"{"TUPLE":["U8","BOOL"]}"#, "0701");
    same::<Id>("Id", "0700000000000000");
    same::<Nothing>("Nothing", "");
    for digits in ["00", "010700000000000000", "020700000000000000000000000000000000", "030102"] {
        same::<Shape>("Shape", digits);
    }
}

#[test]
fn types_that_do_not_fit_are_refused() {
    let number = r#""U8""#;
    assert_eq!(plain().encode(number, &256).unwrap_err().message(), "U8 doesn't hold every i32");
    let error = plain().decode::<String>(number, [7]).unwrap_err();
    assert_eq!(error.to_string(), "refused: WrongType: U8 takes an integer, not a string");
    assert_eq!(plain().decode::<u8>(number, []).unwrap_err().reason(), Some("EndOfInput"));
}

/// Of members with one name the last counts, and a number before it may be as large as a float gets.
#[test]
fn overwritten_members() {
    for number in ["1.797693134862315807e308", "17976931348623158079e289", "0.00017976931348623158e312"] {
        let registry = Registry::read(format!(r#"{{"A":{number},"A":{{"NEWTYPESTRUCT":"U16"}}}}"#)).unwrap();
        assert_eq!(registry.encode("A", &1u16).unwrap(), [1, 0]);
        let format = format!(r#"{{"SEQ":{number},"SEQ":"U16"}}"#);
        assert_eq!(registry.encode(format.as_str(), &vec![1u16]).unwrap(), [1, 1, 0]);
        assert_eq!(registry.decode::<Vec<u16>>(format.as_str(), [1, 1, 0]).unwrap(), [1]);
    }
}
