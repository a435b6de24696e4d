//! Finds types that would take what a format has for something else.
//!
//! `serde` reads what is flattened or untagged into a buffer, before it knows what the type needs. Then it is lenient: it passes any
//! integer to an `f64`, a list to a struct by position, a string to an enum, and anything to an `Option`. So a value that went to
//! buffers is read again, with a stand-in for one of its parts each time, and `serde` says what the type expected instead.
use crate::error::ErrorKind;
use crate::integers::U8;
use crate::mismatch::Mismatch;
use crate::shapes::Shape;
use crate::wanted::{Fault, Kind, fault, loss, option_fault, struct_fault, width_fault};
use serde::de::value::MapDeserializer;
use serde::de::{IntoDeserializer, Unexpected, Visitor};
use std::cell::{Cell, RefCell};
use std::collections::HashSet;
use std::{iter, ptr};

/// No format has characters or floats.
const CHARACTER: char = '\u{10ffff}';
const FLOAT: f64 = 0.5;
/// No string has this byte.
const BYTES: [u8; 1] = [0xff];

/// A value with at most this many parts is checked part by part, which takes quadratic time. Of a larger one the first part of each
/// format is checked.
const MOST_PARTS: usize = 64;

/// Of more bytes in a row only the first is checked. Tuples have at most this many elements for `serde`, and the elements of other
/// lists have one type.
const MOST_BYTES: usize = 16;

thread_local! {
    static ERRORS: RefCell<Errors> = const { RefCell::new(Errors { count: 0, wanted: Vec::new() }) };
}

/// The errors of a reading. (These aren't errors of the whole: `serde` drops those of the variants of an untagged enum.)
#[derive(Default)]
struct Errors {
    count: usize,
    /// What types wanted in the place of a stand-in, in the words of `serde`, and how many errors came before.
    wanted: Vec<(usize, String)>,
}

/// Counts an error.
pub(crate) fn count_error() {
    ERRORS.with_borrow_mut(|errors| errors.count += 1);
}

/// Counts an error, and records what the type wanted if it found a stand-in.
pub(crate) fn record(found: Unexpected, wanted: impl Fn() -> String) {
    ERRORS.with_borrow_mut(|errors| {
        if [Unexpected::Char(CHARACTER), Unexpected::Float(FLOAT), Unexpected::Bytes(&BYTES)].contains(&found) {
            errors.wanted.push((errors.count, wanted()));
        }
        errors.count += 1;
    });
}

/// What replaces a part.
#[derive(Clone, Copy)]
pub(crate) enum StandIn {
    /// In the place of a number, too, since an `f64` takes floats.
    Character,
    /// A `char` takes characters.
    Float,
    /// Only an `Option` looks into it.
    InSome,
    /// Of the types that take lists, only structs look into it.
    Map,
    /// `serde_json::Value` takes the others.
    Bytes,
}

impl StandIn {
    fn all(kind: Kind) -> &'static [StandIn] {
        use StandIn::*;
        match kind {
            Kind::Unit | Kind::Bool => &[InSome],
            Kind::Name | Kind::Option => &[Float],
            _ if kind.is_number() => &[Character, Float, InSome],
            _ if kind.is_list() => &[Float, InSome, Map],
            _ => &[Float, InSome],
        }
    }

    pub(crate) fn visit<'de, V: Visitor<'de>>(self, visitor: V) -> Result<V::Value, Mismatch> {
        match self {
            StandIn::Character => visitor.visit_char(CHARACTER),
            StandIn::Float => visitor.visit_f64(FLOAT),
            StandIn::InSome => visitor.visit_some(CHARACTER.into_deserializer()),
            StandIn::Map => visitor.visit_map(MapDeserializer::new(iter::once((CHARACTER, CHARACTER)))),
            StandIn::Bytes => visitor.visit_bytes(&BYTES),
        }
    }
}

/// Which format of a registry it is: two that are written alike are two.
type Id = *const Shape;

/// A part of the value that went to a buffer.
#[derive(Clone, Copy)]
struct Part {
    /// How many parts came before it.
    number: usize,
    id: Id,
    kind: Kind,
    is_empty: bool,
    is_first_of_format: bool,
    /// Whether it is the first of many bytes in a row. The others aren't parts.
    is_long_run: bool,
}

/// What a reading of the value is for.
#[derive(Clone, Copy)]
enum Reading {
    /// For the value. It notes only whether there are buffers.
    Value,
    /// To list the parts.
    List,
    /// With a stand-in for this part, and for those of its format that follow if the format is given.
    One(usize, Option<Id>, StandIn),
    /// To reject this part where it is.
    Reject(usize, Fault),
}

/// What to do with a part.
pub(crate) enum Action {
    Read,
    Replace(StandIn),
    Reject(Mismatch),
}

/// What a walk knows of buffers.
pub(crate) struct Probe {
    reading: Cell<Reading>,
    has_buffers: Cell<bool>,
    /// How many parts this reading met.
    count: Cell<usize>,
    /// The parts of small values, and of large ones the first of each format.
    parts: RefCell<Vec<Part>>,
    known: RefCell<HashSet<Id>>,
}

impl Probe {
    pub(crate) fn new() -> Probe {
        Probe {
            reading: Cell::new(Reading::Value),
            has_buffers: Cell::new(false),
            count: Cell::new(0),
            parts: RefCell::default(),
            known: RefCell::default(),
        }
    }

    /// What to do with a part for a type that doesn't say what it is. The names of fields aren't only in buffers, so they are parts
    /// only if something else is.
    #[inline]
    pub(crate) fn action(&self, shape: &Shape, is_empty: impl Fn() -> bool) -> Action {
        let is_name = matches!(shape, Shape::FieldName);
        match self.reading.get() {
            Reading::Value if is_name => Action::Read,
            Reading::Value => {
                self.has_buffers.set(true);
                Action::Read
            }
            reading => self.action_in(reading, shape, is_empty()),
        }
    }

    fn action_in(&self, reading: Reading, shape: &Shape, is_empty: bool) -> Action {
        let number = self.count.replace(self.count.get() + 1);
        let Some(kind) = Kind::of(shape) else {
            return Action::Read;
        };
        match reading {
            Reading::List => self.list(number, shape, kind, is_empty),
            Reading::One(one, id, stand_in) => {
                let is_of_format = || number > one && id.is_some_and(|id| ptr::eq(id, shape));
                if number == one || is_of_format() {
                    return Action::Replace(stand_in);
                }
            }
            Reading::Reject(one, fault) if number == one => return Action::Reject(fault.mismatch(shape)),
            Reading::Value | Reading::Reject(..) => {}
        }
        Action::Read
    }

    fn list(&self, number: usize, id: Id, kind: Kind, is_empty: bool) {
        let mut parts = self.parts.borrow_mut();
        let is_first_of_format = self.known.borrow_mut().insert(id);
        let is_byte = matches!(kind, Kind::Octet | Kind::Integer(U8));
        let run = parts.iter().rev().take_while(|part| is_byte && ptr::eq(part.id, id)).count();
        let first = parts.len() - run;
        if run == MOST_BYTES {
            parts.truncate(first + 1);
            parts[first].is_long_run = true;
        }
        let is_in_long_run = run > 0 && parts[first].is_long_run;
        if is_first_of_format || (parts.len() <= MOST_PARTS && !is_in_long_run) {
            parts.push(Part { number, id, kind, is_empty, is_first_of_format, is_long_run: false });
        }
    }

    /// Rejects a type that expects something other than its format has. `read` reads the value once more.
    pub(crate) fn check(&self, read: impl Fn() -> Result<(), Mismatch>) -> Result<(), Mismatch> {
        if !self.has_buffers.get() {
            return Ok(());
        }
        let (result, Errors { count, .. }) = self.read_with(Reading::List, &read);
        result?;
        let parts = self.parts.take();
        let is_small = parts.len() <= MOST_PARTS;
        let mut lost = None;
        for part in parts.iter().filter(|part| is_small || part.is_first_of_format) {
            let id = (!is_small).then_some(part.id);
            if let Some(fault) = self.fault_of(part, id, count > 0, &read)? {
                return self.reject(part, fault, &read);
            }
            match self.loss_of(part, id, count, &read) {
                // The part itself may be right, and be lost with another one.
                Some(Fault::Lost) => lost = lost.or(Some(part)),
                Some(fault) => return self.reject(part, fault, &read),
                None => {}
            }
        }
        lost.map_or(Ok(()), |part| self.reject(part, Fault::Lost, &read))
    }

    fn reject(&self, part: &Part, fault: Fault, read: impl Fn() -> Result<(), Mismatch>) -> Result<(), Mismatch> {
        self.read_with(Reading::Reject(part.number, fault), &read).0?;
        Err(Mismatch::new("a type read a value that isn't of its kind"))
    }

    /// Why a type doesn't fit a part that it has. If the value is read without any error, then each untagged enum has its first
    /// variant, so the first error is that of the type that has the part. Otherwise each type counts that was tried.
    fn fault_of(
        &self,
        part: &Part,
        id: Option<Id>,
        has_errors: bool,
        read: impl Fn() -> Result<(), Mismatch>,
    ) -> Result<Option<Fault>, Mismatch> {
        let Part { number, kind, is_empty, .. } = *part;
        for stand_in in StandIn::all(kind) {
            let (result, Errors { wanted, .. }) = self.read_with(Reading::One(number, id, *stand_in), &read);
            if let Some(error) = result.err().filter(|error| error.kind == ErrorKind::Stack) {
                return Err(error);
            }
            let words =
                |any: bool| wanted.iter().filter(move |(before, _)| any || *before == 0).map(|(_, word)| &**word);
            let fault = match stand_in {
                StandIn::Character | StandIn::Float => {
                    fault(kind, is_empty, words(has_errors)).or_else(|| width_fault(kind, words(true)))
                }
                StandIn::InSome => option_fault(kind, is_empty, words(has_errors)),
                StandIn::Map | StandIn::Bytes => struct_fault(words(has_errors)),
            };
            if fault.is_some() {
                return Ok(fault);
            }
        }
        Ok(None)
    }

    /// Why a part is in no type that tried to read it. A flattened `Option` is `None` whatever its content rejects, and an untagged
    /// enum may have a variant without a field that another one rejects. Then there are no more errors with values that types reject.
    fn loss_of(
        &self,
        part: &Part,
        id: Option<Id>,
        errors: usize,
        read: impl Fn() -> Result<(), Mismatch>,
    ) -> Option<Fault> {
        if errors == 0 || part.kind == Kind::Name {
            return None;
        }
        let mut first = None;
        for stand_in in [StandIn::Float, StandIn::Character, StandIn::Bytes] {
            let (result, Errors { count, wanted }) = self.read_with(Reading::One(part.number, id, stand_in), &read);
            if result.is_err() || count > errors {
                return None;
            }
            first = first.or(wanted.into_iter().next().filter(|_| count == errors));
        }
        first.map(|(_, wanted)| loss(part.kind, part.is_empty, &wanted))
    }

    /// Reads the value once more, and returns the errors of its types.
    fn read_with(&self, reading: Reading, read: impl Fn() -> Result<(), Mismatch>) -> (Result<(), Mismatch>, Errors) {
        // (the code of a type may decode something, too, while another walk is under way)
        let of_outer_walk = ERRORS.take();
        self.reading.set(reading);
        self.count.set(0);
        let result = read();
        (result, ERRORS.replace(of_outer_walk))
    }
}
