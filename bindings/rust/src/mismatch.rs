//! Why a value of a `serde` type isn't one of a format.
use crate::error::ErrorKind;
use crate::faults::TextFault;
use crate::probe;
use crate::shapes::Shape;
use serde::de::{self, Expected, Unexpected};
use std::fmt;

/// Why, and where: a JSON Pointer.
#[derive(Clone, Debug, PartialEq, Eq)]
pub struct Mismatch {
    pub(crate) kind: ErrorKind,
    pub(crate) pointer: String,
    pub(crate) words: String,
    /// Whether the words name the format, which the innermost one that a type refuses adds.
    pub(crate) names_format: bool,
}

impl Mismatch {
    pub(crate) fn new(words: impl fmt::Display) -> Mismatch {
        Mismatch { kind: ErrorKind::Value, pointer: String::new(), words: words.to_string(), names_format: false }
    }

    /// The type has something that the format doesn't take.
    pub(crate) fn unfit(shape: &Shape, found: &str) -> Mismatch {
        let words = format!("{} takes {}, not {found}", shape.name(), shape.takes());
        Mismatch { names_format: true, ..Mismatch::new(words) }
    }

    /// An integer type, or an integer format, doesn't have every number of the other.
    pub(crate) fn narrow(integer: &str, other: &str) -> Mismatch {
        Mismatch { names_format: true, ..Mismatch::new(format_args!("{integer} doesn't hold every {other}")) }
    }

    /// The JSON of the value would nest too deep for the library.
    pub(crate) fn too_nested() -> Mismatch {
        let fault = TextFault::TooNested;
        Mismatch { kind: ErrorKind::Text(fault), ..Mismatch::new(fault.meaning()) }
    }

    /// The value has more nodes than the limits allow.
    pub(crate) fn too_many_nodes() -> Mismatch {
        let fault = TextFault::TooManyNodes;
        Mismatch { kind: ErrorKind::Text(fault), ..Mismatch::new(fault.meaning()) }
    }

    /// The thread has too little stack for a value that nests so deep.
    pub(crate) fn out_of_stack() -> Mismatch {
        Mismatch { kind: ErrorKind::Stack, ..Mismatch::new("") }
    }

    /// The same of a member or an element. The library reports `TooNested` and `TooManyNodes` for the whole value, so
    /// this does, too.
    pub(crate) fn under(mut self, step: impl fmt::Display) -> Mismatch {
        if self.kind == ErrorKind::Value {
            let step = step.to_string().replace('~', "~0").replace('/', "~1");
            self.pointer.insert_str(0, &format!("/{step}"));
        }
        self
    }

    /// The same with the name of the format at which a type refused what it got.
    pub(crate) fn of_format(mut self, shape: &Shape) -> Mismatch {
        if !self.names_format {
            self.words.push_str(&format!(" (the format is {})", shape.name()));
            self.names_format = true;
        }
        self
    }
}

impl fmt::Display for Mismatch {
    fn fmt(&self, f: &mut fmt::Formatter<'_>) -> fmt::Result {
        f.write_str(&self.words)
    }
}

impl std::error::Error for Mismatch {}

impl de::Error for Mismatch {
    fn custom<T: fmt::Display>(message: T) -> Mismatch {
        probe::count_error();
        Mismatch::new(message)
    }

    fn invalid_type(found: Unexpected<'_>, wanted: &dyn Expected) -> Mismatch {
        probe::record(found, || wanted.to_string());
        Mismatch::new(format_args!("invalid type: {found}, expected {wanted}"))
    }
}

impl serde::ser::Error for Mismatch {
    fn custom<T: fmt::Display>(message: T) -> Mismatch {
        Mismatch::new(message)
    }
}
