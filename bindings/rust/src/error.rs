use crate::faults::{ExampleFault, GrowthFault, ModulesFault, Reason, RegistryFault, Stop, TextFault};
use crate::sys::{self, Answer};
use std::fmt;

/// Why a call refuses its input, and where.
///
/// ```
/// use bcs_proved::{Error, ErrorKind, Reason, Registry, Stop, TextFault};
///
/// let registry = Registry::read(r#"{"Vote":{"STRUCT":[{"yes":"BOOL"},{"id":"BYTES"}]}}"#)?;
/// let error = registry.decode_json("Vote", [2]).unwrap_err();
/// assert_eq!(error, ErrorKind::Bytes(Stop { reason: Reason::BadBool, place: 0 }));
/// assert_eq!((error.kind().name(), error.reason(), error.place()), ("bytes", Some("BadBool"), Some(0)));
/// assert_eq!((error.at(), error.message()), (Some(".yes"), "expected BOOL, 00 or 01, found 02"));
/// assert_eq!(error.to_string(), "refused: BadBool at byte 0, .yes: expected BOOL, 00 or 01, found 02");
///
/// let error = registry.encode_json("Vote", r#"{"yes":true,"id":"0"}"#).unwrap_err();
/// assert_eq!(error, ErrorKind::Text(TextFault::BadHex));
/// assert_eq!(error.to_string(), "refused: BadHex at /id: an odd number of digits; each byte has two");
/// # Ok::<(), Error>(())
/// ```
#[derive(Clone, Debug, PartialEq, Eq, Hash)]
pub struct Error {
    kind: ErrorKind,
    found: Option<Box<Found>>,
}

/// Where something is refused, and what is wrong there.
#[derive(Clone, Debug, PartialEq, Eq, Hash)]
struct Found {
    at: String,
    message: String,
}

/// What is refused, and why.
#[derive(Clone, Copy, Debug, PartialEq, Eq, Hash)]
#[non_exhaustive]
pub enum ErrorKind {
    /// The text isn't a registry.
    Registry(RegistryFault),
    /// The registry has no such format.
    Format(RegistryFault),
    /// The depth of the limits is above 500.
    Limits,
    /// The newer registry doesn't keep what the older one has.
    Growth(GrowthFault),
    /// The JSON isn't a value of the format.
    Text(TextFault),
    /// The bytes aren't a value of the format.
    Bytes(Stop),
    /// The bytes are a value, but its JSON would nest more than 100 deep.
    TooNested,
    /// The path, name or pointer of a part is invalid, or a view of [`Views`](crate::Views).
    Path,
    /// The part isn't a byte string: `BYTES`, `STR`, or a list or an array of `U8`.
    NoContent,
    /// The format has no such example.
    Example(ExampleFault),
    /// The modules of a Move chain, or a type that is requested of them, give no registry.
    Modules(ModulesFault),
    /// A value of a `serde` type isn't of the format, or a value of the format isn't of the type: with the feature `serde_json`.
    Value,
    /// The thread has too little stack left for a value that nests so deep. On a thread with more stack the call may succeed.
    Stack,
    /// An allocation failed.
    Memory,
}

impl Error {
    /// What is refused, and why.
    pub const fn kind(&self) -> ErrorKind {
        self.kind
    }

    /// The fault's name, as [`ErrorKind::reason`] returns it.
    pub const fn reason(&self) -> Option<&'static str> {
        self.kind.reason()
    }

    /// The offset of the byte where bytes stop being a value.
    pub const fn place(&self) -> Option<usize> {
        self.kind.place()
    }

    /// Where it is refused. In JSON, in a format and in a `serde` value it is a JSON Pointer (RFC 6901) such as `/payload/args/1`,
    /// which is empty if the whole is refused. In bytes it is the field path, such as `.payload.args[1]`. In a registry, and in two
    /// that don't grow, it is a definition, such as `Shape, field side`, and in a path a step, such as `step 2 x`. In modules it is a
    /// JSON Pointer, or the type that was requested. Names are as they are, never escaped or cut.
    pub fn at(&self) -> Option<&str> {
        self.found.as_deref().map(|found| found.at.as_str())
    }

    /// What is wrong there, for people. The wording may change.
    pub fn message(&self) -> &str {
        match self.found.as_deref() {
            Some(found) if !found.message.is_empty() => &found.message,
            _ => self.kind.meaning(),
        }
    }

    /// The error of an answer that isn't the expected one.
    pub(crate) fn of(answer: Answer) -> Error {
        ErrorKind::of(answer).into()
    }

    /// The same error with what was expected of the whole.
    pub(crate) fn expected(self, what: &str) -> Error {
        self.found(Some((String::new(), format!("expected {what}"))))
    }

    /// The same error with its location and message, if they are known.
    pub(crate) fn found(mut self, found: Option<(String, String)>) -> Error {
        self.found = found.map(|(at, message)| Box::new(Found { at, message }));
        self
    }
}

impl ErrorKind {
    /// The name of the kind, which is the same in all languages: `registry`, `format`, `limits`, `growth`, `text`, `bytes`,
    /// `path`, `example`, `modules`, `value`, `stack` or `memory`.
    pub const fn name(&self) -> &'static str {
        match self {
            ErrorKind::Registry(_) => "registry",
            ErrorKind::Format(_) => "format",
            ErrorKind::Limits => "limits",
            ErrorKind::Growth(_) => "growth",
            ErrorKind::Text(_) => "text",
            ErrorKind::Bytes(_) | ErrorKind::TooNested => "bytes",
            ErrorKind::Path | ErrorKind::NoContent => "path",
            ErrorKind::Example(_) => "example",
            ErrorKind::Modules(_) => "modules",
            ErrorKind::Value => "value",
            ErrorKind::Stack => "stack",
            ErrorKind::Memory => "memory",
        }
    }

    /// The fault's name, as the program `bcs` prints it; `WrongType` for values. Limits, stack and memory have none.
    pub const fn reason(&self) -> Option<&'static str> {
        match self {
            ErrorKind::Registry(fault) | ErrorKind::Format(fault) => Some(fault.name()),
            ErrorKind::Growth(fault) => Some(fault.name()),
            ErrorKind::Text(fault) => Some(fault.name()),
            ErrorKind::Bytes(stop) => Some(stop.reason.name()),
            ErrorKind::TooNested => Some("TooNested"),
            ErrorKind::Path => Some("BadPath"),
            ErrorKind::NoContent => Some("NoContent"),
            ErrorKind::Example(fault) => Some(fault.name()),
            ErrorKind::Modules(fault) => Some(fault.name()),
            ErrorKind::Value => Some("WrongType"),
            ErrorKind::Limits | ErrorKind::Stack | ErrorKind::Memory => None,
        }
    }

    /// The offset of the byte where bytes stop being a value.
    pub const fn place(&self) -> Option<usize> {
        match self {
            ErrorKind::Bytes(stop) => Some(stop.place),
            _ => None,
        }
    }

    /// What is wrong, if nothing more is known.
    const fn meaning(&self) -> &'static str {
        match self {
            ErrorKind::Registry(fault) | ErrorKind::Format(fault) => fault.meaning(),
            ErrorKind::Limits => "the depth is above 500",
            ErrorKind::Growth(fault) => fault.meaning(),
            ErrorKind::Text(fault) => fault.meaning(),
            ErrorKind::Bytes(stop) => stop.reason.meaning(),
            ErrorKind::TooNested => "the value's JSON would nest more than 100 deep",
            ErrorKind::Path => "not a path, a name or a pointer of a part",
            ErrorKind::NoContent => "expected a part that is BYTES, STR, or a list or an array of U8",
            ErrorKind::Example(fault) => fault.meaning(),
            ErrorKind::Modules(fault) => fault.meaning(),
            ErrorKind::Value => "the value and the format don't fit",
            ErrorKind::Stack => "the thread has too little stack left",
            ErrorKind::Memory => "out of memory",
        }
    }

    fn of(answer: Answer) -> ErrorKind {
        let kind = match answer.status {
            sys::REGISTRY | sys::NEWER => RegistryFault::of(answer.fault).map(ErrorKind::Registry),
            sys::FORMAT => RegistryFault::of(answer.fault).map(ErrorKind::Format),
            sys::LIMITS => Some(ErrorKind::Limits),
            sys::REFUSED => refusal(answer),
            sys::MEMORY => Some(ErrorKind::Memory),
            sys::STACK => Some(ErrorKind::Stack),
            sys::PATH => Some(ErrorKind::Path),
            _ => None,
        };
        kind.unwrap_or_else(|| panic!("libbcs.a isn't of this crate's version: it answered {answer:?}"))
    }
}

/// What an input is refused for.
fn refusal(answer: Answer) -> Option<ErrorKind> {
    match answer.fault {
        sys::SHOWN_TOO_NESTED => return Some(ErrorKind::TooNested),
        sys::NO_CONTENT => return Some(ErrorKind::NoContent),
        _ => {}
    }
    stop(answer)
        .map(ErrorKind::Bytes)
        .or_else(|| TextFault::of(answer.fault).map(ErrorKind::Text))
        .or_else(|| GrowthFault::of(answer.fault).map(ErrorKind::Growth))
        .or_else(|| ExampleFault::of(answer.fault).map(ErrorKind::Example))
        .or_else(|| ModulesFault::of(answer.fault).map(ErrorKind::Modules))
}

/// Where bytes stop being a value, if the answer says that they do.
pub(crate) fn stop(answer: Answer) -> Option<Stop> {
    Some(Stop { reason: Reason::of(answer.fault)?, place: sys::to_place(answer.place) })
}

/// The line `refused: REASON at byte PLACE, AT: MESSAGE`, without what there isn't.
impl fmt::Display for Error {
    fn fmt(&self, f: &mut fmt::Formatter<'_>) -> fmt::Result {
        if self.kind == ErrorKind::Memory {
            return f.write_str(self.message());
        }
        f.write_str("refused")?;
        if let Some(reason) = self.reason() {
            write!(f, ": {reason}")?;
        }
        match (self.place(), self.at().unwrap_or_default()) {
            (None, "") => Ok(()),
            (None, at) => write!(f, " at {at}"),
            (Some(place), "") => write!(f, " at byte {place}"),
            (Some(place), at) => write!(f, " at byte {place}, {at}"),
        }?;
        write!(f, ": {}", self.message())
    }
}

/// The line of an error about which nothing more is known.
impl fmt::Display for ErrorKind {
    fn fmt(&self, f: &mut fmt::Formatter<'_>) -> fmt::Result {
        Error::from(*self).fmt(f)
    }
}

impl std::error::Error for Error {}

impl std::error::Error for ErrorKind {}

impl From<ErrorKind> for Error {
    fn from(kind: ErrorKind) -> Error {
        Error { kind, found: None }
    }
}

/// Whether it is of this kind.
impl PartialEq<ErrorKind> for Error {
    fn eq(&self, kind: &ErrorKind) -> bool {
        self.kind == *kind
    }
}

#[cfg(feature = "serde_json")]
impl From<crate::mismatch::Mismatch> for Error {
    fn from(mismatch: crate::mismatch::Mismatch) -> Error {
        let is_found = mismatch.kind != ErrorKind::Stack;
        Error::from(mismatch.kind).found(is_found.then_some((mismatch.pointer, mismatch.words)))
    }
}

impl From<GrowthFault> for Error {
    fn from(fault: GrowthFault) -> Error {
        ErrorKind::Growth(fault).into()
    }
}

impl From<TextFault> for Error {
    fn from(fault: TextFault) -> Error {
        ErrorKind::Text(fault).into()
    }
}

impl From<Stop> for Error {
    fn from(stop: Stop) -> Error {
        ErrorKind::Bytes(stop).into()
    }
}
