//! Limits: of the depth, and of the nodes.
use bcs_proved::{ErrorKind, Form, Format, Limits, Reason, Registry, Stop};

mod common;
use common::plain;

/// A list of links, each of which is a container in the one before.
fn chains() -> Registry {
    Registry::read(r#"{"Chain":{"STRUCT":[{"next":{"OPTION":{"TYPENAME":"Chain"}}}]}}"#).unwrap()
}

/// The bytes of a chain.
fn chain(links: usize) -> Vec<u8> {
    [vec![1; links - 1], vec![0]].concat()
}

#[test]
fn the_standard_limits_are_the_greatest() {
    assert_eq!(Limits::STANDARD, Limits { depth: 500, nodes: Some(u32::MAX) });
    assert_eq!(Limits::default(), Limits { depth: 500, nodes: None });
    assert_eq!(plain().limits(), Limits::default());
    assert_eq!(chains().scan("Chain", chain(500)), Ok(500));
    let stop = Stop { reason: Reason::TooDeep, place: 500 };
    assert_eq!(chains().scan("Chain", chain(501)).unwrap_err(), ErrorKind::Bytes(stop));
}

#[test]
fn a_depth_above_500_is_refused_by_each_call() {
    let unit = &Format::json(r#""UNIT""#);
    for depth in [501, u32::MAX] {
        let registry = plain().with_limits(Limits { depth, ..Limits::default() });
        assert_eq!(registry.check(unit).unwrap_err(), ErrorKind::Limits);
        assert_eq!(registry.encode_json(unit, "null").unwrap_err(), ErrorKind::Limits);
        assert_eq!(registry.decode_json(unit, "").unwrap_err(), ErrorKind::Limits);
        assert_eq!(registry.normalise_json(unit, "null").unwrap_err(), ErrorKind::Limits);
        assert_eq!(registry.equal_json(unit, "null", "null").unwrap_err(), ErrorKind::Limits);
        assert_eq!(registry.scan(unit, "").unwrap_err(), ErrorKind::Limits);
        assert_eq!(registry.part(unit, "", ".").unwrap_err(), ErrorKind::Limits);
        assert_eq!(registry.explain_text(unit, "", Form::Ways).unwrap_err(), ErrorKind::Limits);
    }
}

#[test]
fn a_registry_keeps_its_own_limits() {
    let registry = chains();
    let shallow = registry.with_limits(Limits { depth: 1, ..Limits::default() });
    let copy = shallow.clone();
    assert_eq!(registry.limits().depth, 500);
    assert_eq!(copy.limits(), shallow.limits());
    assert!(copy.scan("Chain", chain(2)).is_err());
    assert_eq!(registry.scan("Chain", chain(2)), Ok(2));
}

/// The default number of nodes is 65,536 plus 16 for each byte.
#[test]
fn the_default_grows_with_the_bytes() {
    let units = &Format::json(r#"{"TUPLE":["BYTES",{"SEQ":"UNIT"}]}"#);
    // The tuple, the bytes, the list, and its units; 3 bytes for the length of the units, and 1 or 2 for that of the bytes.
    let input = |octets: usize, units: u32| {
        let length = |number: u32| {
            let digits = |shift| (number >> shift) as u8;
            vec![digits(0) | 0x80, (digits(7) | 0x80), digits(14) & 0x7f]
        };
        [length(octets as u32 | 1 << 14), vec![0; octets | 1 << 14], length(units)].concat()
    };
    for octets in [0, 1000] {
        let nodes = 65_536 + 16 * input(octets, 0).len() as u32;
        let greatest = input(octets, nodes - 3);
        assert_eq!(plain().scan(units, &greatest), Ok(greatest.len()));
        assert_eq!(plain().scan(units, input(octets, nodes - 2)).unwrap_err().reason(), Some("TooManyNodes"));
        let bytes_and_more = [greatest.clone(), vec![0; 100]].concat();
        assert_eq!(plain().scan(units, bytes_and_more), Ok(greatest.len()));
    }
}

/// JSON is as large as what it becomes, so its nodes have no other limit by default.
#[test]
fn the_default_of_texts_is_the_greatest() {
    let units = &Format::json(r#"{"SEQ":"UNIT"}"#);
    let text = format!("[null{}]", ",null".repeat(99_999));
    let encoded = plain().encode_json(units, &text).unwrap();
    assert_eq!(encoded, [0xa0, 0x8d, 0x06]);
    assert_eq!(plain().decode_json(units, &encoded).unwrap_err().reason(), Some("TooManyNodes"));
    let trusting = plain().with_limits(Limits::STANDARD);
    assert_eq!(trusting.decode_json(units, &encoded).unwrap(), text);
}
