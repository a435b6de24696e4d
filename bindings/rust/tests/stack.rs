//! The deepest values on the stacks that docs/LIMITS.md names.
use bcs_proved::{ErrorKind, Limits, Registry};
use std::thread;

/// What one level of a format is, before and behind its part.
const LEVELS: [(&str, &str); 4] = [
    (r#"{"OPTION":"#, "}"),
    (r#"{"SEQ":"#, "}"),
    (r#"{"MAP":{"KEY":"#, r#","VALUE":"UNIT"}}"#),
    (r#"{"MAP":{"KEY":"UNIT","VALUE":"#, "}}"),
];

/// How many levels stand between two containers. With the name of the inner one they are as many as a format may have.
const LEVELS_BETWEEN: usize = 31;

fn chain_of((before, behind): (&str, &str)) -> Registry {
    let format = before.repeat(LEVELS_BETWEEN) + r#"{"TYPENAME":"Chain"}"# + &behind.repeat(LEVELS_BETWEEN);
    Registry::read(format!(r#"{{"Chain":{{"NEWTYPESTRUCT":{format}}}}}"#)).unwrap()
}

/// So many containers in one another. Each level between them is a byte, and the innermost one holds nothing.
fn chain(containers: usize) -> Vec<u8> {
    [vec![1; LEVELS_BETWEEN * (containers - 1)], vec![0]].concat()
}

fn judge_on_stack(mebibytes: usize, containers: usize) {
    let judge = move || {
        for level in LEVELS {
            let registry = chain_of(level).with_limits(Limits { depth: containers as u32, ..Limits::default() });
            let bytes = chain(containers);
            assert_eq!(registry.scan("Chain", &bytes), Ok(bytes.len()), "{level:?}");
            assert_eq!(registry.decode_json("Chain", &bytes).unwrap_err(), ErrorKind::TooNested, "{level:?}");
            let deeper = registry.scan("Chain", chain(containers + 1)).unwrap_err();
            assert_eq!((deeper.reason(), deeper.place()), (Some("TooDeep"), Some(bytes.len() + 30)), "{level:?}");
        }
    };
    thread::Builder::new().stack_size(mebibytes << 20).spawn(judge).unwrap().join().unwrap();
}

#[test]
fn eight_mebibytes_are_enough_for_500_containers() {
    judge_on_stack(8, 500);
}

#[test]
fn two_mebibytes_are_enough_for_100_containers() {
    judge_on_stack(2, 100);
}

/// What calls answer on a stack of this many KiB.
fn on_stack<T: Send + 'static>(kibibytes: usize, calls: impl FnOnce() -> T + Send + 'static) -> T {
    thread::Builder::new().stack_size(kibibytes << 10).spawn(calls).unwrap().join().unwrap()
}

/// A thread with less stack gets an error for what is too deep, and nothing crashes.
#[test]
fn a_small_stack_is_no_crash() {
    for kibibytes in [64, 96, 128, 256, 512, 1024, 2048, 4096] {
        for level in LEVELS {
            let (registry, bytes) = (chain_of(level), chain(500));
            let length = bytes.len();
            let (scanned, part, decoded) = on_stack(kibibytes, move || {
                let part = registry.part("Chain", &bytes, ".").map(|part| part.unwrap().bytes.len());
                (registry.scan("Chain", &bytes), part, registry.decode_json("Chain", &bytes))
            });
            let label = format!("{kibibytes} KiB, {level:?}");
            assert!([Ok(length), Err(ErrorKind::Stack.into())].contains(&scanned), "{label}: {scanned:?}");
            assert!([Ok(length), Err(ErrorKind::Stack.into())].contains(&part), "{label}: {part:?}");
            let decoded = decoded.unwrap_err();
            assert!([ErrorKind::TooNested, ErrorKind::Stack].contains(&decoded.kind()), "{label}: {decoded}");
        }
    }
}

/// In a list of links each is a container in the one before. 128 KiB hold some of them, and 1 MiB as many as JSON may nest.
#[test]
fn a_small_stack_is_enough_for_what_fits() {
    let registry = Registry::read(r#"{"Chain":{"STRUCT":[{"next":{"OPTION":{"TYPENAME":"Chain"}}}]}}"#).unwrap();
    let bytes = |containers: usize| [vec![1; containers - 1], vec![0]].concat();
    let text = |containers: usize| {
        r#"{"next":{"some":"#.repeat(containers - 1) + r#"{"next":null}"# + &"}}".repeat(containers - 1)
    };
    for (kibibytes, few) in [(128, 3), (256, 10), (1024, 50), (2048, 50), (8192, 50)] {
        let registry = registry.clone();
        on_stack(kibibytes, move || {
            assert_eq!(registry.encode_json("Chain", text(few)), Ok(bytes(few)), "{kibibytes} KiB");
            assert_eq!(registry.decode_json("Chain", bytes(few)), Ok(text(few)), "{kibibytes} KiB");
            assert_eq!(registry.normalise_json("Chain", text(few)), Ok(text(few)), "{kibibytes} KiB");
            assert_eq!(registry.equal_json("Chain", text(few), text(few)), Ok(true), "{kibibytes} KiB");
            for call in
                [registry.encode_json("Chain", text(50)).map(drop), registry.decode_json("Chain", bytes(50)).map(drop)]
            {
                assert!([Ok(()), Err(ErrorKind::Stack.into())].contains(&call), "{kibibytes} KiB: {call:?}");
            }
            // What is refused on every stack is refused for what it is.
            let error = registry.scan("Chain", [vec![1; 2], vec![2]].concat()).unwrap_err();
            assert_eq!((error.reason(), error.place()), (Some("BadOption"), Some(2)), "{kibibytes} KiB");
            let shallow = registry.with_limits(Limits { depth: 2, ..Limits::default() });
            assert_eq!(shallow.scan("Chain", bytes(3)).unwrap_err().reason(), Some("TooDeep"), "{kibibytes} KiB");
        });
    }
}
