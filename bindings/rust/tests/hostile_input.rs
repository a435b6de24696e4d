//! A few bytes that encode many empty values cost little. This program has one test, since it reads the peak memory of the
//! process.
use bcs_proved::{Error, ErrorKind, Form, Format, Limits, Reason, Registry, Stop};
use common::processor_time;
use std::fs;
use std::time::Duration;

mod common;

const BYTES: [u8; 5] = [0xff, 0xff, 0xff, 0xff, 0x07];

/// The most memory that this process has had, in KiB.
fn peak_memory() -> u64 {
    let status = fs::read_to_string("/proc/self/status").unwrap();
    let line = status.lines().find_map(|line| line.strip_prefix("VmHWM:")).unwrap();
    line.trim().strip_suffix(" kB").unwrap().parse().unwrap()
}

/// Each call that reads bytes.
fn stops(registry: &Registry, format: &Format) -> Vec<Result<Stop, Error>> {
    // 65,616 nodes are the list and 65,615 values, so the value of this number is one too many. Finding that out reads the bytes
    // once more, with the same limits.
    let rejected = |error: Error| match (error.kind(), error.at()) {
        (ErrorKind::Bytes(stop), Some("[65615]")) => Ok(stop),
        _ => Err(error),
    };
    #[allow(unused_mut, reason = "the feature serde_json has more calls")]
    let mut stops = vec![
        rejected(registry.decode_json(format, BYTES).unwrap_err()),
        rejected(registry.scan(format, BYTES).unwrap_err()),
        rejected(registry.part(format, &BYTES, ".").unwrap_err()),
        registry.explain(format, BYTES).map(|pieces| pieces.stop.unwrap()),
        registry.explain_text(format, BYTES, Form::Ways).map(|explanation| explanation.stop.unwrap()),
    ];
    #[cfg(feature = "serde_json")]
    stops.extend([
        rejected(registry.decode_json_value(format, BYTES).unwrap_err()),
        rejected(registry.decode::<Vec<()>>(format, BYTES).unwrap_err()),
    ]);
    stops
}

/// A registry with a list of structs, which are 20 units with names of this length.
fn units_with_names(length: usize) -> Registry {
    let fields: Vec<String> = (10..30).map(|number| format!(r#"{{"{number:x<length$}":"UNIT"}}"#)).collect();
    let text = format!(
        r#"{{"Units":{{"STRUCT":[{}]}},"List":{{"NEWTYPESTRUCT":{{"SEQ":{{"TYPENAME":"Units"}}}}}}}}"#,
        fields.join(",")
    );
    Registry::read(text).unwrap()
}

/// The bytes of a list of this many structs: its length, and nothing.
fn structs(count: usize) -> Vec<u8> {
    let groups = (0..5).map(|at| count >> (7 * at)).take_while(|rest| *rest > 0);
    groups.map(|rest| (rest & 0x7f) as u8 | if rest > 0x7f { 0x80 } else { 0 }).collect()
}

/// Names repeat in a decoded value, so long ones count towards its nodes. 40,000 structs are refused, and what is allowed is
/// small. A struct is 22 nodes: the container, its row of fields, and the units. The newtype and the list are two more.
fn long_names_cost_little() {
    assert_eq!(structs(40_000), [0xc0, 0xb8, 0x02]);
    // 65,536 nodes, and 16 for each of the two bytes; names longer than 64 bytes divide them.
    for (length, allowed) in [(10, 2980), (64, 2980), (65, 2934), (1000, 190), (60_000, 3)] {
        let registry = units_with_names(length);
        assert_eq!(
            registry.decode_json("List", structs(40_000)).unwrap_err().reason(),
            Some("TooManyNodes"),
            "{length}"
        );
        assert_eq!(registry.scan("List", structs(allowed + 1)).unwrap_err().reason(), Some("TooManyNodes"), "{length}");
        assert!(registry.decode_json("List", structs(allowed)).unwrap().len() < 20 << 20, "{length}");
        #[cfg(feature = "serde_json")]
        drop(registry.decode_json_value("List", structs(allowed)).unwrap());
    }
}

#[test]
fn a_few_bytes_cost_little() {
    let start = processor_time();
    long_names_cost_little();
    assert!(peak_memory() < 64 << 10, "it took {} KiB", peak_memory());
    let registry = Registry::read("{}").unwrap();
    let units = &Format::json(r#"{"SEQ":"UNIT"}"#);
    let stop = Stop { reason: Reason::TooManyNodes, place: 5 };
    for told in stops(&registry, units) {
        assert_eq!(told, Ok(stop));
    }
    // 3,000,000 units are more than the default allows for so few bytes, and any number may be allowed.
    let many = [0xc0, 0x8d, 0xb7, 0x01];
    assert_eq!(registry.scan(units, many).unwrap_err().reason(), Some("TooManyNodes"));
    assert_eq!(registry.with_limits(Limits::STANDARD).scan(units, many), Ok(4));
    let enough = Limits { nodes: Some(3_000_001), ..Limits::default() };
    assert_eq!(registry.with_limits(enough).scan(units, many), Ok(4));
    // A smaller depth leaves the default of the nodes as it is.
    let shallow = Limits { depth: 10, ..Limits::default() };
    assert_eq!(registry.with_limits(shallow).scan(units, many).unwrap_err().reason(), Some("TooManyNodes"));
    let took = processor_time() - start;
    assert!(took < Duration::from_secs(10), "it took {took:?}");
    assert!(peak_memory() < 256 << 10, "it took {} KiB", peak_memory());
}
