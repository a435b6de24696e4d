//! `serde` values that nest, registries that name themselves, and changed values there and back.
#![cfg(feature = "serde_json")]

use bcs_proved::{ErrorKind, Limits, Registry, RegistryFault, TextFault};
use serde::Deserialize;
use serde::ser::{Serialize, Serializer};
use serde_json::Value;
use std::collections::BTreeMap;
use std::thread;

/// So many options in one another.
struct Options(u32);

impl Serialize for Options {
    fn serialize<S: Serializer>(&self, serializer: S) -> Result<S::Ok, S::Error> {
        match self.0 {
            0 => serializer.serialize_none(),
            levels => serializer.serialize_some(&Options(levels - 1)),
        }
    }
}

fn chain() -> Registry {
    Registry::read(r#"{"Chain":{"NEWTYPESTRUCT":{"OPTION":{"TYPENAME":"Chain"}}}}"#).unwrap()
}

#[test]
fn a_value_nests_as_deep_as_its_json_may() {
    let deepest = [vec![1; 100], vec![0]].concat();
    assert_eq!(chain().encode("Chain", &Options(100)), Ok(deepest.clone()));
    // (the library counts alike: the decoder prints the same JSON)
    assert_eq!(chain().decode_json("Chain", &deepest).unwrap().matches('{').count(), 100);
    for levels in [101, 500, u32::MAX] {
        let error = chain().encode("Chain", &Options(levels)).unwrap_err();
        assert_eq!((error.kind(), error.at()), (ErrorKind::Text(TextFault::TooNested), Some("")), "{levels}");
    }
    assert_eq!(chain().decode::<Value>("Chain", [1; 101]).unwrap_err().reason(), Some("EndOfInput"));
}

#[test]
fn a_smaller_depth_is_kept() {
    let shallow = chain().with_limits(Limits { depth: 3, ..Limits::default() });
    assert_eq!(shallow.encode("Chain", &Options(2)), Ok(vec![1, 1, 0]));
    for levels in [3, 50, u32::MAX] {
        let error = shallow.encode("Chain", &Options(levels)).unwrap_err();
        let place = Some("/some/some/some");
        assert_eq!((error.kind(), error.at()), (ErrorKind::Text(TextFault::TooDeep), place), "{levels}");
    }
    let wrong = chain().with_limits(Limits { depth: 501, ..Limits::default() });
    assert_eq!(wrong.encode("Chain", &Options(0)).unwrap_err(), ErrorKind::Limits);
    assert_eq!(wrong.encode("Chain", &7).unwrap_err(), ErrorKind::Limits);
}

#[test]
fn a_newtype_that_names_itself_has_no_value() {
    let text = r#"{"A":{"NEWTYPESTRUCT":{"TYPENAME":"B"}},"B":{"NEWTYPESTRUCT":{"TYPENAME":"A"}}}"#;
    let registry = Registry::read(text).unwrap();
    let rejections = [
        registry.encode("A", &7),
        registry.encode("A", &None::<u8>),
        registry.encode("A", &[7]),
        registry.encode("A", &Options(3)),
        registry.encode("A", &BTreeMap::from([((), ())])),
    ];
    for told in rejections {
        assert_eq!(told.unwrap_err(), ErrorKind::Text(TextFault::TooDeep));
    }
    assert_eq!(registry.decode::<u8>("A", [7]).unwrap_err().reason(), Some("TooDeep"));
}

#[test]
fn formats_are_rejected_before_what_the_value_is() {
    let rows = [
        ("Chains", RegistryFault::UnknownName),
        (r#"{"TUPLE":["U8",{"TYPENAME":"Chains"}]}"#, RegistryFault::UnknownName),
        (r#"{"SEQ":"U7"}"#, RegistryFault::BadShape),
        (r#"{"NEWTYPESTRUCT":"U8"}"#, RegistryFault::BadShape),
        (r#"{"SEQ"}"#, RegistryFault::NotJson),
        (r#"{}"#, RegistryFault::BadShape),
    ];
    for (format, fault) in rows {
        assert_eq!(chain().encode(format, &7).unwrap_err(), ErrorKind::Format(fault), "{format}");
        assert_eq!(chain().encode(format, &(true, 'x')).unwrap_err(), ErrorKind::Format(fault), "{format}");
        assert_eq!(chain().decode::<u8>(format, [7]).unwrap_err(), ErrorKind::Format(fault), "{format}");
    }
}

/// A value of JSON that nests too deep to be written is no crash. (It is taken apart by hand, since dropping it is deep, too.)
#[test]
fn deep_json_is_rejected() {
    let told = thread::Builder::new().stack_size(256 << 10).spawn(|| {
        let mut value = Value::Null;
        for _ in 0..100_000 {
            value = Value::Array(vec![value]);
        }
        let told = chain().encode_json_value("Chain", &value);
        while let Value::Array(mut values) = value {
            value = values.pop().unwrap();
        }
        told
    });
    assert_eq!(told.unwrap().join().unwrap().unwrap_err(), ErrorKind::Text(TextFault::NotJson));
    let nested = |levels| (0..levels).fold(Value::Null, |value, _| Value::Array(vec![value]));
    assert_eq!(chain().encode_json_value("Chain", &nested(127)).unwrap_err(), ErrorKind::Text(TextFault::TooNested));
    assert_eq!(chain().encode_json_value("Chain", &nested(128)).unwrap_err(), ErrorKind::Text(TextFault::NotJson));
}

#[derive(serde::Serialize, Deserialize, Debug, PartialEq)]
struct Link {
    next: Option<Box<Link>>,
    amount: u64,
    memo: String,
}

/// The code of a type uses the stack before the library does, or after it.
#[test]
fn a_small_stack_is_no_crash() {
    let fields = r#"{"next":{"OPTION":{"TYPENAME":"Link"}}},{"amount":"U64"},{"memo":"STR"}"#;
    let registry = &Registry::read(format!(r#"{{"Link":{{"STRUCT":[{fields}]}}}}"#)).unwrap();
    let link = |next| Link { next, amount: 7, memo: "x".into() };
    let links = &(0..49).fold(link(None), |next, _| link(Some(Box::new(next))));
    let bytes = &[vec![1; 49], vec![0], [7, 0, 0, 0, 0, 0, 0, 0, 1, b'x'].repeat(50)].concat();
    for kibibytes in [64, 96, 128, 160, 192, 224, 256, 320, 384, 512, 1024] {
        let calls = || (registry.encode("Link", links), registry.decode::<Link>("Link", bytes));
        let (encoded, decoded) = thread::scope(|scope| {
            thread::Builder::new().stack_size(kibibytes << 10).spawn_scoped(scope, calls).unwrap().join().unwrap()
        });
        let stack = || ErrorKind::Stack.into();
        if kibibytes < 1024 {
            assert!([Ok(bytes), Err(&stack())].contains(&encoded.as_ref()), "{kibibytes} KiB: {encoded:?}");
            assert!([Ok(links), Err(&stack())].contains(&decoded.as_ref()), "{kibibytes} KiB: {decoded:?}");
        } else {
            assert_eq!((encoded.as_ref(), decoded.as_ref()), (Ok(bytes), Ok(links)));
        }
    }
}

#[derive(serde::Serialize, Deserialize, Debug, PartialEq)]
enum Peano {
    Zero,
    Next(Box<Peano>),
}

/// The payload of a variant is a level, too.
#[test]
fn a_small_stack_holds_no_variants() {
    let text = r#"{"Peano":{"ENUM":{"0":{"Zero":"UNIT"},"1":{"Next":{"NEWTYPE":{"TYPENAME":"Peano"}}}}}}"#;
    let registry = &Registry::read(text).unwrap();
    let number = &(0..98).fold(Peano::Zero, |number, _| Peano::Next(Box::new(number)));
    let bytes = &[vec![1; 98], vec![0]].concat();
    for kibibytes in [64, 96, 128, 192, 256, 320, 384, 512, 1024] {
        let calls = || (registry.encode("Peano", number), registry.decode::<Peano>("Peano", bytes));
        let (encoded, decoded) = thread::scope(|scope| {
            thread::Builder::new().stack_size(kibibytes << 10).spawn_scoped(scope, calls).unwrap().join().unwrap()
        });
        let stack = || ErrorKind::Stack.into();
        assert!([Ok(bytes), Err(&stack())].contains(&encoded.as_ref()), "{kibibytes} KiB: {encoded:?}");
        assert!([Ok(number), Err(&stack())].contains(&decoded.as_ref()), "{kibibytes} KiB: {decoded:?}");
    }
}

/// A registry in many threads, whose formats are read for the first of them.
#[test]
fn threads_share_the_formats() {
    for _ in 0..20 {
        let registry = &chain();
        thread::scope(|scope| {
            for levels in 0..16 {
                scope.spawn(move || {
                    let bytes = registry.encode("Chain", &Options(levels)).unwrap();
                    assert_eq!(bytes, [vec![1; levels as usize], vec![0]].concat());
                    assert!(registry.encode("Chain", &true).is_err());
                });
            }
        });
    }
}

#[derive(serde::Serialize, Deserialize, Debug, PartialEq, Clone)]
enum Shape {
    Dot,
    Circle(u128),
    Rest(i8, Option<Option<i128>>),
    Named { side: u16, name: String },
}

#[derive(serde::Serialize, Deserialize, Debug, PartialEq, Clone)]
struct All {
    shapes: Vec<Shape>,
    truth: bool,
    number: u64,
    signed: i64,
    octets: Vec<u8>,
    #[serde(with = "bcs_proved::bytes")]
    bytes: Vec<u8>,
    map: BTreeMap<u16, (i32, String)>,
    unit: (),
}

const REGISTRY: &str = r#"{
    "Shape": {"ENUM": {
        "0": {"Dot": "UNIT"},
        "1": {"Circle": {"NEWTYPE": "U128"}},
        "200": {"Rest": {"TUPLE": ["I8", {"OPTION": {"OPTION": "I128"}}]}},
        "3": {"Named": {"STRUCT": [{"side": "U16"}, {"name": "STR"}]}}
    }},
    "All": {"STRUCT": [
        {"shapes": {"SEQ": {"TYPENAME": "Shape"}}}, {"truth": "BOOL"}, {"number": "U64"}, {"signed": "I64"},
        {"octets": {"SEQ": "U8"}}, {"bytes": "BYTES"},
        {"map": {"MAP": {"KEY": "U16", "VALUE": {"TUPLE": ["I32", "STR"]}}}}, {"unit": "UNIT"}
    ]}
}"#;

/// Bytes in which one bit after another is changed, as long as they are a value, are decoded as a type and encoded again. (The bytes of
/// random values are in serde_random.rs.)
#[test]
fn changed_values_come_and_go() {
    let registry = Registry::read(REGISTRY).unwrap();
    let named = |side| Shape::Named { side, name: "a\"\\\0é\u{1f600}/".into() };
    let rests = [None, Some(None), Some(Some(i128::MIN))].map(|rest| Shape::Rest(-1, rest));
    let all = All {
        shapes: vec![[&[Shape::Dot, Shape::Circle(u128::MAX), named(7), named(513)], &rests[..]].concat(); 20].concat(),
        truth: true,
        number: u64::MAX,
        signed: i64::MIN,
        octets: vec![7; 130],
        bytes: (0..=255).collect(),
        map: BTreeMap::from([(1, (-7, "b".into())), (256, (7, String::new())), (2, (0, "7".into()))]),
        unit: (),
    };
    let (mut bytes, mut random, mut decoded) = (registry.encode("All", &all).unwrap(), 20_261_128_u64, 0);
    assert_eq!(registry.decode("All", &bytes), Ok(all));
    for _ in 0..1000 {
        random = random.wrapping_mul(6_364_136_223_846_793_005).wrapping_add(1);
        let bit = (random >> 33) as usize % (8 * bytes.len());
        bytes[bit / 8] ^= 1 << (bit % 8);
        match registry.decode_json_value("All", &bytes) {
            Ok(json) => {
                let all = registry.decode::<All>("All", &bytes).unwrap();
                assert_eq!(registry.encode("All", &all).as_ref(), Ok(&bytes), "{all:?}");
                assert_eq!(registry.encode_json_value("All", &json).as_ref(), Ok(&bytes), "{all:?}");
                decoded += 1;
            }
            Err(refused) => {
                assert_eq!(registry.decode::<All>("All", &bytes), Err(refused));
                bytes[bit / 8] ^= 1 << (bit % 8);
            }
        }
    }
    assert!(decoded > 400, "{decoded}");
}
