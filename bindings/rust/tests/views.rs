//! Pieces inside of byte strings. The rows of tests/rows/explain_views.rows and tests/rows/contents.py have more.
use bcs_proved::{Error, ErrorKind, Form, Format, Reason, Registry, RegistryFault, Stop, Views};

const TEXT: &str = r#"{"Note":{"STRUCT":[{"memo":"BYTES"},{"args":{"SEQ":"BYTES"}}]},
    "f":{"STRUCT":[{"arg0":"U16"}]},"f::arg0":{"NEWTYPESTRUCT":"U16"},
    "Account":{"NEWTYPESTRUCT":{"TUPLEARRAY":{"CONTENT":"U8","SIZE":32}}}}"#;

fn note() -> Registry {
    Registry::read(TEXT).unwrap()
}

/// The places, names and values of what is explained as `Note`.
fn told(bytes: &[u8], views: &Views) -> Result<Vec<(usize, String, String)>, Error> {
    let pieces = note().explain_with("Note", bytes, views)?.pieces;
    Ok(pieces.into_iter().map(|it| (it.place, it.name, it.value)).collect())
}

fn piece(place: usize, name: &str, value: &str) -> (usize, String, String) {
    (place, name.to_owned(), value.to_owned())
}

#[test]
fn pieces_inside_have_names() {
    let bytes = [1, 7, 1, 2, 1, 2];
    let expected = |memo, arg| [piece(0, ".memo", "1"), memo, piece(2, ".args", "1"), piece(3, ".args[0]", "2"), arg];
    let views = Views::new().inside(".memo", r#""U8""#).call(".args", "f");
    let both = expected(piece(1, ".memo[bcs]", "7"), piece(4, ".args[0][bcs]", "513"));
    assert_eq!(told(&bytes, &views).unwrap(), both);
    let none = expected(piece(1, ".memo", "1"), piece(4, ".args[0]", "2"));
    assert_eq!(told(&bytes, &Views::new()).unwrap(), none);
    assert_eq!(note().explain("Note", bytes).unwrap(), note().explain_with("Note", bytes, &Views::new()).unwrap());
    let paths = note().explain_with("Note", bytes, &views).unwrap().pieces;
    assert_eq!((paths[1].path.as_deref(), paths[0].path.as_deref()), (None, Some("inner/0")));
}

/// The first view counts of those whose names match.
#[test]
fn views_keep_their_order() {
    let bytes = [0, 1, 1, 7];
    let views = Views::new().inside(".args[*]", r#""U8""#).inside(".args[0]", r#""BOOL""#);
    assert_eq!(told(&bytes, &views).unwrap().last(), Some(&piece(3, ".args[0][bcs]", "7")));
    let views = Views::new().inside(".args[0]", r#""BOOL""#).inside(".args[*]", r#""U8""#);
    let stop = note().explain_with("Note", bytes, &views).unwrap().stop;
    assert_eq!(stop, Some(Stop { reason: Reason::BadBool, place: 3 }));
}

#[test]
fn calls_are_compared() {
    let table = concat!(env!("CARGO_MANIFEST_DIR"), "/../../tests/rows/explain_views.json");
    let registry = Registry::read(std::fs::read_to_string(table).unwrap()).unwrap();
    let views = Views::new().inside(".x", r#""U8""#).call(".args", "0x1::m::one");
    let call = |address| [address, b"\x01m\x03one\x00\x01\x01\x07".as_slice()].concat();
    let same = registry.explain_with("Aptos", call(b"\x00\x01".as_slice()), &views).unwrap();
    assert_eq!(same.pieces.last().unwrap().name, ".args[0][bcs]");
    assert_eq!((same.stop, same.expected, same.notes), (None, None, vec![".x: no byte string there".to_owned()]));
    let other = registry.explain_with("Aptos", call(b"\xba\xba".as_slice()), &views).unwrap();
    let both = "arguments of 0x1::m::one, found a call of 0xbaba::m::one";
    assert_eq!(other.stop, Some(Stop { reason: Reason::OtherFunction, place: 9 }));
    assert_eq!((other.expected.as_deref(), other.notes), (Some(both), vec![]));
    let refused = registry.explain_with(r#"{"SEQ":"U16"}"#, [0], &Views::new().call(".", "0x1::m::one")).unwrap();
    assert_eq!(refused.stop, Some(Stop { reason: Reason::BadPath, place: 0 }));
}

#[test]
fn views_are_refused() {
    let unknown = ErrorKind::Format(RegistryFault::UnknownName);
    let shape = ErrorKind::Format(RegistryFault::BadShape);
    let views = || Views::new().inside(".memo", "f").call(".args", "f").address("Account");
    let rows = [
        (views().inside("", "f"), ErrorKind::Path, "", "inside: expected a name such as .payload.args[1]"),
        (views().inside(".a=b", "f"), ErrorKind::Path, ".a=b", "inside: expected a name such as .payload.args[1]"),
        (views().call(".args\n", "f"), ErrorKind::Path, ".args\n", "call: a line feed, which no view may have"),
        (views().inside(".a", "Nope"), unknown, "", "inside .a: no container is called Nope"),
        (
            views().inside(".a", Format::json(r#"{"SEQ":"U7"}"#)),
            shape,
            "/SEQ",
            "inside .a: expected a format, found \"U7\"",
        ),
        (views().call(".a", "g"), unknown, "", "call .a: the registry has no arguments of this function"),
        (views().u256("f"), unknown, "", "u256 f: the registry has no newtype of 32 bytes with this name"),
    ];
    for (views, kind, at, message) in rows {
        for form in [Form::Ways, Form::Json] {
            let error = note().explain_text_with("Note", [0, 0], form, &views).unwrap_err();
            assert_eq!((error.kind(), error.at()), (kind, Some(at)), "{views:?}");
            assert!(error.message().starts_with(message), "{error}");
        }
    }
    let error = note().explain_with("Qqqqq", [0, 0], &Views::new()).unwrap_err();
    assert_eq!(error.to_string(), "refused: UnknownName: no container is called Qqqqq");
}

#[test]
fn a_part_without_content_is_refused() {
    let error = note().content("Note", &[1, 7, 0, 9], "inner/1").unwrap_err();
    assert_eq!((error.kind(), error.kind().name(), error.reason()), (ErrorKind::NoContent, "path", Some("NoContent")));
    assert_eq!(
        error.to_string(),
        "refused: NoContent: expected a part that is BYTES, STR, or a list or an array of U8"
    );
}
