//! What errors say. What is refused, and where, is asked by the rows of tests/rows.
use bcs_proved::{Error, ErrorKind, Example, GrowthFault, Limits, Reason, Registry, RegistryFault, Stop, TextFault};

#[test]
fn errors_say_what_is_wrong() {
    let rows = [
        (
            ErrorKind::Registry(RegistryFault::UnknownName),
            "refused: UnknownName: a TYPENAME names no container of the registry",
        ),
        (
            ErrorKind::Text(TextFault::BadHex),
            "refused: BadHex: a text of bytes isn't an even number of hexadecimal digits",
        ),
        (
            ErrorKind::Bytes(Stop { reason: Reason::BadBool, place: 65 }),
            "refused: BadBool at byte 65: a truth value is neither 00 nor 01",
        ),
        (ErrorKind::Limits, "refused: the depth is above 500"),
        (ErrorKind::TooNested, "refused: TooNested: the value's JSON would nest more than 100 deep"),
        (ErrorKind::Stack, "refused: the thread has too little stack left"),
        (ErrorKind::Memory, "out of memory"),
    ];
    for (error, message) in rows {
        assert_eq!(error.to_string(), message);
    }
}

#[test]
fn faults_turn_into_errors() {
    fn fail(fault: impl Into<Error>) -> Result<(), Box<dyn std::error::Error>> {
        Err(fault.into())?
    }
    assert_eq!(Error::from(ErrorKind::Path).at(), None);
    let stop = Stop { reason: Reason::EndOfInput, place: 0 };
    assert_eq!(Error::from(stop), ErrorKind::Bytes(stop));
    assert_eq!(fail(TextFault::TooLong).unwrap_err().to_string(), ErrorKind::Text(TextFault::TooLong).to_string());
    assert_eq!(
        fail(GrowthFault::Missing).unwrap_err().to_string(),
        ErrorKind::Growth(GrowthFault::Missing).to_string()
    );
}

/// Each kind of refusal has its name, and a line that begins like those of the program and of other languages.
#[test]
fn lines_begin_alike() {
    let registry = Registry::read(r#"{"S":{"ENUM":{"2":{"Circle":{"NEWTYPE":"U64"}}}}}"#).unwrap();
    let deep = registry.with_limits(Limits { depth: 501, nodes: None });
    let list = r#"{"SEQ":"U8"}"#;
    let rows = [
        (registry.show(Some("T")).map(drop), "format", "refused: UnknownName: no container is called T"),
        (deep.check("S"), "limits", "refused: the depth is above 500"),
        (
            registry.part_by_name(list, &[0], "a").map(drop),
            "path",
            "refused: BadPath: expected a name such as .payload.args[1]",
        ),
        (
            registry.part_by_pointer(list, &[0], "a").map(drop),
            "path",
            "refused: BadPath: expected a JSON Pointer such as /payload/args/1",
        ),
        (
            registry.example("S", Example { variant: "Dot", full: false }).map(drop),
            "example",
            "refused: UnknownVariant: the format's enum has no variant of that name, or it isn't an enum",
        ),
    ];
    for (refused, kind, line) in rows {
        let error = refused.unwrap_err();
        assert_eq!((error.kind().name(), error.to_string().as_str()), (kind, line));
    }
}

/// Most refusals fit into the room that a call begins with.
#[test]
fn places_have_any_length() {
    for length in (190..260).chain([100_000]) {
        let name = "a".repeat(length);
        let registry = Registry::read(format!(r#"{{"S":{{"STRUCT":[{{"{name}":"BOOL"}}]}}}}"#)).unwrap();
        let text = registry.encode_json("S", format!(r#"{{"{name}":7}}"#)).unwrap_err();
        assert_eq!(text.at(), Some(format!("/{name}").as_str()));
        let bytes = registry.scan("S", [2]).unwrap_err();
        assert_eq!(bytes.at(), Some(format!(".{name}").as_str()));
        assert_eq!(bytes.message(), "expected BOOL, 00 or 01, found 02");
    }
}
