//! Registries that are made from modules of Move chains. More of them are rows of tests/rows/modules.py.
use bcs_proved::{Error, MadeRegistry, Registry, registry_of_modules};

fn made(json: &str, notes: &str) -> Result<MadeRegistry, Error> {
    Ok(MadeRegistry { json: json.into(), notes: notes.into() })
}

#[test]
fn registries_and_notes_are_returned() {
    let strings = r#"{"0x1::string::String":{"NEWTYPESTRUCT":"STR"},"u8":{"NEWTYPESTRUCT":"U8"}}"#;
    let note = r#""0x01::string::String": the container is called 0x1::string::String"#;
    assert_eq!(registry_of_modules("[]", ["0x1::string::String", "u8"]), made(strings, ""));
    assert_eq!(
        registry_of_modules(b"[]", vec!["0x01::string::String".to_owned(), "u8".to_owned()]),
        made(strings, note)
    );
    assert_eq!(registry_of_modules("[]", [""; 0]), made("{}", ""));
    let names = Registry::read(strings).unwrap().names();
    assert_eq!(names, ["0x1::string::String", "u8"]);
}

/// Types that a line of tests/rows/modules.py can't have, and one that it can.
#[test]
fn refusals_print_as_a_line() {
    let rows = [
        ("[]", "signer", "refused: NoBytes at signer: a signer has no bytes"),
        ("[]", "", "refused: BadType: \"\" isn't a type"),
        ("[]", "a\nb", "refused: BadType at a\nb: a type has no line feed"),
        ("[]", "u8\n", "refused: BadType at u8\n: a type has no line feed"),
    ];
    for (modules, kind, line) in rows {
        assert_eq!(registry_of_modules(modules, [kind]).unwrap_err().to_string(), line);
    }
}
