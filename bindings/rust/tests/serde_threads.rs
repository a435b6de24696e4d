//! Values in eight threads, and calls within calls: each `Serialize` and `Deserialize` below makes calls of its own. No bytes of two
//! calls are mixed. Expected bytes are written out.
#![cfg(feature = "serde_json")]

use bcs_proved::{Bytes, ErrorKind, Registry};
use serde::de::Deserializer;
use serde::ser::Serializer;
use serde::{Deserialize, Serialize};
use std::thread;

const REGISTRY: &str = r#"{"P":{"STRUCT":[{"b":"STR"},{"a":"BYTES"},{"c":{"SEQ":"U16"}},{"d":"U64"}]}}"#;
const LENGTHS: [usize; 6] = [0, 1, 127, 128, 1500, 9000];

#[derive(Serialize, Deserialize, Debug, PartialEq)]
struct P<B = String, A = Bytes, C = u16, D = u64> {
    b: B,
    a: A,
    c: Vec<C>,
    d: D,
}

/// A value and its bytes.
type Row = (P, Vec<u8>);

fn row(number: u16, length: usize) -> Row {
    let text = char::from(b'a' + (number % 26) as u8).to_string().repeat(length);
    let d = u64::from(number) << 40;
    let short = if length < 128 { vec![length as u8] } else { vec![length as u8 | 128, (length >> 7) as u8] };
    let octets = [&short, text.as_bytes()].concat();
    let data = [&octets, &octets, &[2][..], &[number.to_le_bytes(); 2].concat(), &d.to_le_bytes()].concat();
    (P { a: Bytes(text.clone().into_bytes()), b: text, c: vec![number; 2], d }, data)
}

/// Calls of each kind, some of which are refused.
fn check(registry: &Registry, (value, data): &Row) {
    assert_eq!(registry.encode("P", value).unwrap(), *data);
    assert_eq!(registry.decode::<P>("P", data).unwrap(), *value);
    assert_eq!(registry.encode_json("P", registry.decode_json("P", data).unwrap()).unwrap(), *data);
    let refused = registry.encode("P", &P { b: 7, a: 7, c: vec![7], d: 7 }).unwrap_err();
    assert_eq!((refused.kind(), refused.at()), (ErrorKind::Value, Some("/b")));
    let damaged = registry.decode::<P>("P", &data[..data.len() - 1]).unwrap_err();
    assert!(matches!(damaged.kind(), ErrorKind::Bytes(stop) if stop.place == data.len() - 1), "{damaged}");
}

/// A part of a value, which makes calls on other values before it is serialized and after that. At a greater depth, these are on
/// values with such parts.
struct Calling<'a, T>(&'a Registry, &'a [Row], usize, &'a T);

impl<T: Serialize> Serialize for Calling<'_, T> {
    fn serialize<S: Serializer>(&self, serializer: S) -> Result<S::Ok, S::Error> {
        let &Calling(registry, rows, depth, part) = self;
        check(registry, &rows[depth]);
        if depth > 0 {
            check_calling(registry, rows, depth - 1);
        }
        let end = part.serialize(serializer);
        check(registry, &rows[depth + 1]);
        end
    }
}

fn check_calling(registry: &Registry, rows: &[Row], depth: usize) {
    let (P { b, a, c, d }, data) = &rows[rows.len() - 1 - depth];
    let made = P {
        b: Calling(registry, rows, depth, b),
        a: Calling(registry, rows, depth, a),
        c: c.iter().map(|part| Calling(registry, rows, depth, part)).collect(),
        d: Calling(registry, rows, depth, d),
    };
    assert_eq!(registry.encode("P", &made).unwrap(), *data);
}

/// A part that makes calls before it is deserialized and after that.
struct Reading<T>(T);

impl<'de, T: Deserialize<'de>> Deserialize<'de> for Reading<T> {
    fn deserialize<D: Deserializer<'de>>(deserializer: D) -> Result<Reading<T>, D::Error> {
        let registry = Registry::read(REGISTRY).unwrap();
        check(&registry, &row(300, 1500));
        let part = T::deserialize(deserializer).map(Reading);
        check(&registry, &row(7, 0));
        part
    }
}

fn check_reading(registry: &Registry, (value, data): &Row) {
    type Read = P<Reading<String>, Reading<Bytes>, Reading<u16>, Reading<u64>>;
    let P { b, a, c, d } = registry.decode::<Read>("P", data).unwrap();
    assert_eq!(P { b: b.0, a: a.0, c: c.into_iter().map(|part| part.0).collect(), d: d.0 }, *value);
}

#[test]
fn no_bytes_of_two_calls_are_mixed() {
    let registries = [REGISTRY; 2].map(|text| Registry::read(text).unwrap());
    thread::scope(|scope| {
        for thread in 0..8 {
            let registries = &registries;
            scope.spawn(move || {
                for turn in 0..10 {
                    let registry = &registries[usize::from(turn % 2)];
                    let rows = LENGTHS.map(|length| row(1000 * thread + turn, length));
                    rows.iter().for_each(|row| check(registry, row));
                    (0..3).for_each(|depth| check_calling(registry, &rows, depth));
                    rows.iter().for_each(|row| check_reading(registry, row));
                }
            });
        }
    });
}
