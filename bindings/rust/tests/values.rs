//! Names of containers, formats, and pieces. Values and their bytes are rows of tests/rows.
use bcs_proved::{Form, Format, Registry};

mod common;

#[test]
fn container_names_may_be_any_text() {
    let names = ["", "a\"b", "a\\b", "\u{0}\n\t\u{1f}", "\u{7f}/\u{e9}\u{1f600}", "{\"SEQ\":\"U8\"}"];
    for name in names {
        let text = format!(r#"{{{}:{{"NEWTYPESTRUCT":"U8"}}}}"#, json_string(name));
        let registry = Registry::read(text).unwrap();
        assert_eq!(registry.encode_json(Format::named(name), "7").unwrap(), [7], "{name:?}");
        // (a text that begins so is JSON, as for the program)
        if name.starts_with(['{', '"']) {
            continue;
        }
        assert_eq!(registry.encode_json(name, "7").unwrap(), [7], "{name:?}");
        let owned = name.to_owned();
        assert_eq!(registry.encode_json(&owned, "7").unwrap(), [7], "{name:?}");
        assert_eq!(registry.encode_json(owned, "7").unwrap(), [7], "{name:?}");
    }
}

/// A JSON string in which each character is an escape.
fn json_string(text: &str) -> String {
    let escapes: String = text.encode_utf16().map(|unit| format!("\\u{unit:04x}")).collect();
    format!("\"{escapes}\"")
}

#[test]
fn pieces_are_told_one_by_one() {
    let registry = Registry::read(r#"{"E":{"ENUM":{"3":{"A":{"TUPLE":["U8","STR"]}}}}}"#).unwrap();
    let found = registry.explain("E", [3, 1, 2, b'a', b'"']).unwrap();
    let told: Vec<_> = found
        .pieces
        .iter()
        .map(|it| {
            (it.place, it.bytes.as_slice(), it.kind.as_str(), it.what.as_str(), it.value.as_str(), it.name.as_str())
        })
        .collect();
    assert_eq!(told[0], (0, &[3][..], "variant", "E::A", "3", "."));
    assert_eq!(told[1], (1, &[1][..], "unsigned", "U8", "1", "::A[0]"));
    assert_eq!(told[3], (3, &b"a\""[..], "text", "STR", "a\"", "::A[1]"));
    assert_eq!((told.len(), found.stop), (4, None));
    let explanation = registry.explain_text("E", [3, 1, 2, b'a', b'"'], Form::Ways).unwrap();
    assert_eq!(explanation.to_string(), explanation.text);
    let stopped = registry.explain("E", [3, 1, 2]).unwrap();
    assert_eq!((stopped.pieces.len(), stopped.stop.unwrap().place), (3, 3));
}

#[test]
fn names_are_those_of_the_containers() {
    assert!(common::example_registry("aptos_registry").names().iter().any(|name| name == "RawTransaction"));
    let text = r#" { "a\n\"\u00e9" : "UNITSTRUCT", "B" : {"ENUM":{"0":{"}]\\":"UNIT"}}} } "#;
    assert_eq!(Registry::read(text).unwrap().names(), ["a\n\"é", "B"]);
    assert!(Registry::read("{}").unwrap().names().is_empty());
}

#[test]
fn a_registry_may_come_as_a_text_or_as_bytes() {
    let text = common::example("sui_registry.json");
    for registry in [Registry::read(&text), Registry::read(text.as_bytes()), Registry::read(text.into_bytes())] {
        registry.unwrap().check("TransactionData").unwrap();
    }
}

#[test]
fn formats_are_taken_as_the_program_takes_them() {
    let registry = Registry::read(r#"{"Id":{"NEWTYPESTRUCT":"U16"}}"#).unwrap();
    for format in ["Id", r#"{"TYPENAME":"Id"}"#, r#""U16""#] {
        assert_eq!(registry.encode_json(format, "7").unwrap(), [7, 0]);
        assert_eq!(registry.encode_json(String::from(format), "7").unwrap(), [7, 0]);
    }
    assert_eq!(registry.check(Format::named(r#""U16""#)).unwrap_err().reason(), Some("UnknownName"));
}
