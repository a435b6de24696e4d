//! Values whose parts are shared: their JSON may be much larger than they are, so nodes are counted while it is written.
#![cfg(feature = "serde_json")]

use bcs_proved::{Error, ErrorKind, Limits, Registry, TextFault};
use common::processor_time;
use serde::Serialize;
use serde::ser::{SerializeSeq, Serializer};
use std::collections::BTreeMap;
use std::fs;
use std::time::Duration;

mod common;

/// Lists of nine parts each, this many in one another: 9^levels elements, without memory.
struct Nested(u32);

impl Serialize for Nested {
    fn serialize<S: Serializer>(&self, serializer: S) -> Result<S::Ok, S::Error> {
        if self.0 == 0 {
            return serializer.serialize_u8(7);
        }
        let mut items = serializer.serialize_seq(None)?;
        for _ in 0..9 {
            items.serialize_element(&Nested(self.0 - 1))?;
        }
        items.end()
    }
}

/// Bytes by `serialize_bytes`.
#[derive(Clone, Copy)]
struct Bytes<'b>(&'b [u8]);

impl Serialize for Bytes<'_> {
    fn serialize<S: Serializer>(&self, serializer: S) -> Result<S::Ok, S::Error> {
        serializer.serialize_bytes(self.0)
    }
}

#[derive(Serialize)]
enum Choice {
    One(u16),
    Two { a: u16, b: u16 },
}

fn registry(nodes: u32) -> Registry {
    let choice =
        r#"{"Choice":{"ENUM":{"0":{"One":{"NEWTYPE":"U16"}},"1":{"Two":{"STRUCT":[{"a":"U16"},{"b":"U16"}]}}}}}"#;
    Registry::read(choice).unwrap().with_limits(Limits { nodes: Some(nodes), ..Limits::default() })
}

fn refusal(error: &Error) -> (ErrorKind, Option<&str>) {
    (error.kind(), error.at())
}

#[test]
fn shared_parts_cost_at_most_the_limit() {
    let mut format = String::from(r#""U8""#);
    for _ in 0..12 {
        format = format!(r#"{{"SEQ":{format}}}"#);
    }
    let start = processor_time();
    // 282,429,536,481 elements
    let error = registry(1_000_000).encode(format.as_str(), &Nested(12)).unwrap_err();
    assert_eq!(refusal(&error), (ErrorKind::Text(TextFault::TooManyNodes), Some("")));
    let bytes = [0; 1 << 20];
    let error = registry(1 << 22).encode(r#"{"SEQ":{"SEQ":"U8"}}"#, &vec![Bytes(&bytes); 1 << 20]).unwrap_err();
    assert_eq!(refusal(&error), (ErrorKind::Text(TextFault::TooManyNodes), Some("")));
    assert!(processor_time() - start < Duration::from_secs(20));
}

/// The least limit with which a value is accepted is the library's own, of its JSON: what is counted here is never more.
fn has_nodes<T: Serialize>(format: &str, value: &T, nodes: u32) {
    assert!(registry(nodes).encode(format, value).is_ok(), "{format}: {nodes}");
    let error = registry(nodes - 1).encode(format, value).unwrap_err();
    assert_eq!(error.kind(), ErrorKind::Text(TextFault::TooManyNodes), "{format}: {nodes}");
    let json = registry(nodes).decode_json(format, registry(nodes).encode(format, value).unwrap()).unwrap();
    let error = registry(nodes - 1).encode_json(format, json).unwrap_err();
    assert_eq!(error.kind(), ErrorKind::Text(TextFault::TooManyNodes), "{format}: {nodes}");
}

#[test]
fn no_node_is_counted_twice() {
    has_nodes(r#""U8""#, &7u8, 1);
    has_nodes(r#""BYTES""#, &Bytes(&[1, 2, 3]), 1);
    has_nodes(r#""BYTES""#, &[1u8, 2, 3], 1);
    has_nodes(r#"{"SEQ":"U8"}"#, &Bytes(&[1, 2, 3]), 4);
    has_nodes(r#"{"SEQ":"U8"}"#, &vec![1u8, 2, 3], 4);
    has_nodes(r#"{"TUPLEARRAY":{"CONTENT":"U8","SIZE":3}}"#, &[1u8, 2, 3], 4);
    has_nodes(r#"{"SEQ":"UNIT"}"#, &[(), ()], 3);
    has_nodes(r#"{"OPTION":"U8"}"#, &None::<u8>, 1);
    has_nodes(r#"{"OPTION":{"OPTION":"U8"}}"#, &Some(Some(7u8)), 3);
    has_nodes(r#"{"TUPLE":["U8","STR"]}"#, &(7u8, "a"), 3);
    has_nodes(r#"{"MAP":{"KEY":"U8","VALUE":"BOOL"}}"#, &BTreeMap::from([(1u8, true), (2, false)]), 5);
    has_nodes("Choice", &Choice::One(1), 3);
    has_nodes("Choice", &Choice::Two { a: 1, b: 2 }, 5);
}

/// Lists in one another, each twice in the next: 2^levels of them.
struct Twice(u32);

impl Serialize for Twice {
    fn serialize<S: Serializer>(&self, serializer: S) -> Result<S::Ok, S::Error> {
        let mut items = serializer.serialize_seq(None)?;
        for _ in 0..if self.0 == 0 { 0 } else { 2 } {
            items.serialize_element(&Twice(self.0 - 1))?;
        }
        items.end()
    }
}

/// The greatest memory that this process has used, in MiB.
fn peak() -> usize {
    let status = fs::read_to_string("/proc/self/status").unwrap();
    let peak = status.lines().find_map(|line| line.strip_prefix("VmHWM:")?.trim().strip_suffix(" kB")).unwrap();
    peak.parse::<usize>().unwrap() >> 10
}

/// Without limits, too.
#[test]
fn shared_parts_cost_little_by_default() {
    let registry = Registry::read(r#"{"T":{"NEWTYPESTRUCT":{"SEQ":{"TYPENAME":"T"}}}}"#).unwrap();
    let start = processor_time();
    let error = registry.encode("T", &Twice(40)).unwrap_err();
    assert_eq!(refusal(&error), (ErrorKind::Text(TextFault::TooManyNodes), Some("")));
    assert!(processor_time() - start < Duration::from_secs(30));
    assert!(peak() < 400, "{} MiB", peak());
}
