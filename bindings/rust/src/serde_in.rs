//! The JSON that the library prints, as a value of a `serde` type, by the format: the way back from `serde_out`.
//!
//! The format decides what a type gets, and its visitor rejects what isn't of its kind. What a type requests matters only where
//! visitors accept more: an `f64` would round an integer, a struct would take a tuple's elements by their order, a set would drop
//! bytes that occur twice, a string would take bytes, and an `Option` a unit.
use crate::hex;
use crate::integers::{self, Integer, U8};
use crate::mismatch::Mismatch;
use crate::normal::Normal;
use crate::probe::{Action, StandIn};
use crate::shapes::{At, FIELD_NAME, Member, Members, OCTET, PLAIN_LIST, Shape, VOID};
use serde::de::{self, DeserializeOwned, DeserializeSeed, Deserializer, MapAccess, SeqAccess, VariantAccess, Visitor};
use std::borrow::Cow;
use std::str::FromStr;
use std::vec;

/// The value that normal JSON of a format represents.
pub(crate) fn value_of<T: DeserializeOwned>(json: &str, at: At) -> Result<T, Mismatch> {
    T::deserialize(Reader { at, json: Json::Value(&Normal::new(json), 0) })
}

/// A value of a format. A type may read it any number of times, and needn't read all of it.
#[derive(Clone, Copy)]
struct Reader<'w> {
    at: At<'w>,
    json: Json<'w>,
}

#[derive(Clone, Copy)]
enum Json<'w> {
    /// The value that begins at this offset.
    Value(&'w Normal<'w>, usize),
    /// A byte of a byte string.
    Byte(u8),
    /// The name of a field or a variant.
    Name(&'w str),
    /// The payload of a variant that has none.
    Nothing,
}

/// What can't be: the library prints JSON of the format.
fn other_json<T>() -> Result<T, Mismatch> {
    Err(Mismatch::new("the library's JSON isn't of the format"))
}

/// What a type read of some elements, if it read all of them.
fn whole<T>(value: T, length: usize, left: usize) -> Result<T, Mismatch> {
    match left {
        0 => Ok(value),
        _ => Err(Mismatch::new(format_args!("the type takes {} of {length} elements", length - left))),
    }
}

fn bytes_of(digits: &str) -> Result<Vec<u8>, Mismatch> {
    hex::bytes_of(digits).map_or_else(other_json, Ok)
}

macro_rules! visit_integer {
    ($format:ident, $digits:ident, $visitor:ident: $($name:ident $visit:ident)*) => {
        match $format {
            $(integers::$name => $visitor.$visit(integer_of($digits)?),)*
            _ => other_json(),
        }
    };
}

/// An integer, as the type of Rust that has the format's range. Wider types accept it, and no other does.
fn visit_integer<'de, V: Visitor<'de>>(format: Integer, digits: &str, visitor: V) -> Result<V::Value, Mismatch> {
    visit_integer! {
        format, digits, visitor:
        U8 visit_u8 U16 visit_u16 U32 visit_u32 U64 visit_u64 U128 visit_u128
        I8 visit_i8 I16 visit_i16 I32 visit_i32 I64 visit_i64 I128 visit_i128
    }
}

fn integer_of<N: FromStr>(digits: &str) -> Result<N, Mismatch> {
    digits.parse().map_or_else(|_| other_json(), Ok)
}

fn visit_text<'de, V: Visitor<'de>>(text: Cow<str>, visitor: V) -> Result<V::Value, Mismatch> {
    match text {
        Cow::Borrowed(text) => visitor.visit_str(text),
        Cow::Owned(text) => visitor.visit_string(text),
    }
}

impl<'w> Reader<'w> {
    #[inline]
    fn entered(self) -> Reader<'w> {
        Reader { at: self.at.entered(), ..self }
    }

    fn unfit<T>(&self, type_is: &str) -> Result<T, Mismatch> {
        Err(Mismatch::unfit(self.at.entered().shape, type_is))
    }

    fn is_some_of_nothing(&self) -> bool {
        matches!(self.json, Json::Value(normal, start) if normal.has(start, "{\"some\":null}"))
    }

    fn is_empty(&self) -> bool {
        const EMPTY: [&str; 3] = ["[]", "{}", "\"\""];
        matches!(self.json, Json::Value(normal, start) if EMPTY.iter().any(|empty| normal.has(start, empty)))
    }

    /// What the format has here, for a type that requests it.
    fn visit_as_requested<'de, V: Visitor<'de>>(self, visitor: V) -> Result<V::Value, Mismatch> {
        let shape = self.at.shape;
        self.visit(visitor).map_err(|error: Mismatch| error.of_format(shape))
    }

    /// The same for a type that may be a buffer.
    fn visit_part<'de, V: Visitor<'de>>(self, visitor: V, is_name: bool) -> Result<V::Value, Mismatch> {
        let shape = self.at.shape;
        match self.at.walk.probe.action(shape, || self.is_empty()) {
            Action::Read => self.visit_as_requested(visitor),
            // A name's visitor would take a character for its text.
            Action::Replace(_) if is_name => StandIn::Float.visit(visitor).map_err(|error| error.of_format(shape)),
            Action::Replace(stand_in) => stand_in.visit(visitor).map_err(|error| error.of_format(shape)),
            Action::Reject(mismatch) => Err(mismatch),
        }
    }

    /// An integer type has to hold all numbers of the format, whatever this one is. The bytes of `BYTES` are each a `u8`, and no
    /// other integer.
    fn visit_integer_as<'de, V: Visitor<'de>>(self, integer: Integer, visitor: V) -> Result<V::Value, Mismatch> {
        let reader = self.entered();
        match reader.at.shape {
            Shape::Integer(format) if !integer.holds(*format) => Err(Mismatch::narrow(integer.rust, format.format)),
            Shape::Octet if integer != U8 => reader.unfit(&integer.found()),
            _ => reader.visit_as_requested(visitor),
        }
    }

    fn visit<'de, V: Visitor<'de>>(self, visitor: V) -> Result<V::Value, Mismatch> {
        let (normal, start) = match (self.at.shape, self.json) {
            (Shape::Unit, _) => return visitor.visit_unit(),
            (_, Json::Byte(byte)) => return visitor.visit_u8(byte),
            (_, Json::Name(name)) => return visitor.visit_str(name),
            (_, Json::Value(normal, start)) => (normal, start),
            (_, Json::Nothing) => return self.unfit("a list"),
        };
        match (self.at.shape, normal.sign(start)) {
            (Shape::Bool, _) => visitor.visit_bool(normal.word(start) == "true"),
            (Shape::Integer(format), _) => visit_integer(*format, normal.word(start), visitor),
            (Shape::Str | Shape::Enum(_), b'"') => visit_text(text_at(normal, start)?, visitor),
            (Shape::Option(_), _) => self.visit_option(visitor),
            (Shape::Struct(members) | Shape::Enum(members), b'{') => {
                visit_members(self.at, members, normal, start, visitor)
            }
            (Shape::Map(entry), b'[') => visit_entries(self.at.to(entry), normal, start, visitor),
            _ => self.visit_items(visitor),
        }
    }

    fn visit_option<'de, V: Visitor<'de>>(self, visitor: V) -> Result<V::Value, Mismatch> {
        const SOME: &str = "{\"some\":";
        let Shape::Option(content) = self.at.shape else {
            return self.unfit("an Option");
        };
        let (normal, start) = match self.json {
            Json::Value(normal, start) if normal.has(start, SOME) => (normal, start),
            Json::Value(normal, start) if normal.word(start) == "null" => return visitor.visit_none(),
            _ => return other_json(),
        };
        let content_start = start + SOME.len();
        let content = Reader { at: self.at.part(content)?, json: Json::Value(normal, content_start) };
        // A type that isn't an option rejects this one, and not what it holds.
        let value = visitor
            .visit_some(content)
            .map_err(|error: Mismatch| if error.names_format { error.under("some") } else { error });
        normal.note(start, normal.end_of(content_start) + 1);
        value
    }

    fn visit_items<'de, V: Visitor<'de>>(self, visitor: V) -> Result<V::Value, Mismatch> {
        let parts = match self.at.shape {
            Shape::Bytes => Parts::Same(&OCTET),
            Shape::Seq(content) | Shape::Array(content) | Shape::Map(content) => Parts::Same(content),
            Shape::Tuple(all) => Parts::Own(all),
            Shape::Entry(halves) => Parts::Own(&halves[..]),
            _ => return self.unfit("a list"),
        };
        let Json::Value(normal, start) = self.json else {
            return other_json();
        };
        let values = match normal.sign(start) {
            b'[' => Values::Json(normal, start + 1),
            b'"' => Values::Bytes(bytes_of(&text_at(normal, start)?)?.into_iter()),
            _ => return other_json(),
        };
        let mut items = Items { at: self.at, parts, values, count: 0 };
        let value = visitor.visit_seq(&mut items)?;
        let left = items.values.left();
        if let Values::Json(_, place) = items.values {
            normal.note(start, place + 1);
        }
        whole(value, items.count + left, left)
    }
}

/// The string at this offset.
fn text_at<'t>(normal: &Normal<'t>, start: usize) -> Result<Cow<'t, str>, Mismatch> {
    normal.string(start).map_or_else(other_json, |(text, _)| Ok(text))
}

macro_rules! integers {
    ($($name:ident: $integer:ident,)*) => {
        $(fn $name<V: Visitor<'de>>(self, visitor: V) -> Result<V::Value, Mismatch> {
            self.visit_integer_as(integers::$integer, visitor)
        })*
    };
}

macro_rules! nothing {
    ($($name:ident: $type_is:literal,)*) => {
        /// No format has such values.
        $(fn $name<V: Visitor<'de>>(self, _: V) -> Result<V::Value, Mismatch> { self.unfit($type_is) })*
    };
}

impl<'de> Deserializer<'de> for Reader<'_> {
    type Error = Mismatch;

    /// For a type that doesn't say what it is, such as `serde_json::Value`, and for the buffers of what is flattened. It can't tell
    /// `None` from a `Some` of nothing, so it gets neither of two options in one another where the outer one is there.
    fn deserialize_any<V: Visitor<'de>>(self, visitor: V) -> Result<V::Value, Mismatch> {
        let reader = self.entered();
        let shape = reader.at.shape;
        if matches!(shape, Shape::Option(_)) && reader.is_some_of_nothing() {
            return reader.unfit("a type for which Some(None) is None");
        }
        reader.visit_part(visitor, false)
    }

    fn deserialize_ignored_any<V: Visitor<'de>>(self, visitor: V) -> Result<V::Value, Mismatch> {
        visitor.visit_unit()
    }

    fn is_human_readable(&self) -> bool {
        false
    }

    integers! {
        deserialize_i8: I8, deserialize_i16: I16, deserialize_i32: I32, deserialize_i64: I64, deserialize_i128: I128,
        deserialize_u16: U16, deserialize_u32: U32, deserialize_u64: U64, deserialize_u128: U128,
    }

    /// Most often a byte of a byte string.
    fn deserialize_u8<V: Visitor<'de>>(self, visitor: V) -> Result<V::Value, Mismatch> {
        match self.json {
            Json::Byte(byte) => visitor.visit_u8(byte).map_err(|error: Mismatch| error.of_format(self.at.shape)),
            _ => self.visit_integer_as(U8, visitor),
        }
    }

    nothing! { deserialize_f32: "an f32", deserialize_f64: "an f64", deserialize_char: "a char", }

    /// A string is never bytes, a number or a variant, whatever its text is.
    fn deserialize_string<V: Visitor<'de>>(self, visitor: V) -> Result<V::Value, Mismatch> {
        match self.at.entered().shape {
            Shape::Str | Shape::FieldName => self.entered().visit_as_requested(visitor),
            _ => self.unfit("a string"),
        }
    }

    fn deserialize_str<V: Visitor<'de>>(self, visitor: V) -> Result<V::Value, Mismatch> {
        self.deserialize_string(visitor)
    }

    fn deserialize_byte_buf<V: Visitor<'de>>(self, visitor: V) -> Result<V::Value, Mismatch> {
        let reader = self.entered();
        match (reader.at.shape, reader.json) {
            (shape, Json::Value(normal, start)) if matches!(shape, Shape::Bytes) || shape.is_octets() => {
                let bytes = bytes_of(&text_at(normal, start)?)?;
                visitor.visit_byte_buf(bytes).map_err(|error: Mismatch| error.of_format(shape))
            }
            _ => reader.unfit("bytes"),
        }
    }

    fn deserialize_bytes<V: Visitor<'de>>(self, visitor: V) -> Result<V::Value, Mismatch> {
        self.deserialize_byte_buf(visitor)
    }

    fn deserialize_option<V: Visitor<'de>>(self, visitor: V) -> Result<V::Value, Mismatch> {
        let reader = self.entered();
        let shape = reader.at.shape;
        reader.visit_option(visitor).map_err(|error| error.of_format(shape))
    }

    fn deserialize_newtype_struct<V: Visitor<'de>>(self, _: &'static str, visitor: V) -> Result<V::Value, Mismatch> {
        visitor.visit_newtype_struct(self)
    }

    /// A set is a list for `serde`, too, and `BYTES` aren't a set.
    fn deserialize_seq<V: Visitor<'de>>(self, visitor: V) -> Result<V::Value, Mismatch> {
        match self.at.entered().shape {
            Shape::Bytes => self.unfit(PLAIN_LIST),
            _ => self.deserialize_tuple(0, visitor),
        }
    }

    fn deserialize_tuple<V: Visitor<'de>>(self, _: usize, visitor: V) -> Result<V::Value, Mismatch> {
        let reader = self.entered();
        let shape = reader.at.shape;
        reader.visit_items(visitor).map_err(|error: Mismatch| error.of_format(shape))
    }

    fn deserialize_tuple_struct<V: Visitor<'de>>(
        self,
        _: &'static str,
        length: usize,
        visitor: V,
    ) -> Result<V::Value, Mismatch> {
        self.deserialize_tuple(length, visitor)
    }

    fn deserialize_map<V: Visitor<'de>>(self, visitor: V) -> Result<V::Value, Mismatch> {
        match self.at.entered().shape {
            Shape::Map(_) | Shape::Struct(_) => self.entered().visit_as_requested(visitor),
            _ => self.unfit("a map"),
        }
    }

    fn deserialize_struct<V: Visitor<'de>>(
        self,
        _: &'static str,
        _: &'static [&'static str],
        visitor: V,
    ) -> Result<V::Value, Mismatch> {
        match self.at.entered().shape {
            Shape::Struct(_) => self.entered().visit_as_requested(visitor),
            _ => self.unfit("a struct"),
        }
    }

    fn deserialize_enum<V: Visitor<'de>>(
        self,
        _: &'static str,
        _: &'static [&'static str],
        visitor: V,
    ) -> Result<V::Value, Mismatch> {
        let reader = self.entered();
        let Shape::Enum(variants) = reader.at.shape else {
            return reader.unfit("an enum");
        };
        let Json::Value(normal, start) = reader.json else {
            return other_json();
        };
        let is_name = normal.sign(start) == b'"';
        let Some((name, end)) = normal.string(if is_name { start } else { start + 1 }) else {
            return other_json();
        };
        let Some(Member { name, shape: payload, .. }) = variants.find_sorted(&name, 0) else {
            return other_json();
        };
        let json = if is_name { Json::Nothing } else { Json::Value(normal, end + 1) };
        let at = reader.at.part(payload)?;
        let shape = reader.at.shape;
        let value = visitor.visit_enum(Variant { at, name, json }).map_err(|error: Mismatch| error.of_format(shape));
        normal.note(start, if is_name { end } else { normal.end_of(end + 1) + 1 });
        value
    }

    /// A name may go to a buffer. The tag of an enum that is tagged internally is a string, and a variant's number isn't its name.
    fn deserialize_identifier<V: Visitor<'de>>(self, visitor: V) -> Result<V::Value, Mismatch> {
        let reader = self.entered();
        match reader.at.shape {
            Shape::Str => reader.visit_as_requested(visitor),
            _ => reader.visit_part(visitor, true),
        }
    }

    fn deserialize_bool<V: Visitor<'de>>(self, visitor: V) -> Result<V::Value, Mismatch> {
        self.entered().visit_as_requested(visitor)
    }

    fn deserialize_unit<V: Visitor<'de>>(self, visitor: V) -> Result<V::Value, Mismatch> {
        self.entered().visit_as_requested(visitor)
    }

    fn deserialize_unit_struct<V: Visitor<'de>>(self, _: &'static str, visitor: V) -> Result<V::Value, Mismatch> {
        self.entered().visit_as_requested(visitor)
    }
}

/// The formats of a list's elements.
enum Parts<'w> {
    Same(&'w Shape),
    Own(&'w [Shape]),
}

/// The values that are left of a list.
enum Values<'w> {
    /// The next one begins at this offset, or the list ends there.
    Json(&'w Normal<'w>, usize),
    Bytes(vec::IntoIter<u8>),
}

impl<'w> Values<'w> {
    #[inline]
    fn peek(&self) -> Option<Json<'w>> {
        match self {
            Values::Json(normal, place) => (normal.sign(*place) != b']').then_some(Json::Value(normal, *place)),
            Values::Bytes(bytes) => bytes.as_slice().first().copied().map(Json::Byte),
        }
    }

    #[inline]
    fn advance(&mut self) {
        match self {
            Values::Json(normal, place) => *place = normal.next(*place),
            Values::Bytes(bytes) => drop(bytes.next()),
        }
    }

    /// Skips the others, and returns their number.
    fn left(&mut self) -> usize {
        let mut count = 0;
        while self.peek().is_some() {
            self.advance();
            count += 1;
        }
        count
    }
}

struct Items<'w> {
    at: At<'w>,
    parts: Parts<'w>,
    values: Values<'w>,
    count: usize,
}

impl<'de> SeqAccess<'de> for Items<'_> {
    type Error = Mismatch;

    fn next_element_seed<T: DeserializeSeed<'de>>(&mut self, seed: T) -> Result<Option<T::Value>, Mismatch> {
        let Some(json) = self.values.peek() else {
            return Ok(None);
        };
        let shape = match self.parts {
            Parts::Same(shape) => shape,
            Parts::Own(all) => all.get(self.count).unwrap_or(&VOID),
        };
        let place = self.count;
        let element = self.at.part(shape).and_then(|at| {
            let element = seed.deserialize(Reader { at, json });
            element.map_err(|error| error.under(place))
        });
        self.values.advance();
        self.count += 1;
        element.map(Some)
    }

    fn size_hint(&self) -> Option<usize> {
        match &self.values {
            Values::Json(..) => None,
            Values::Bytes(bytes) => Some(bytes.len()),
        }
    }
}

/// The members of an object, for fields or for the one variant.
struct ObjectMembers<'w> {
    at: At<'w>,
    members: &'w Members,
    normal: &'w Normal<'w>,
    /// Where the next name begins, or the object ends.
    place: usize,
    /// How many names were met, and how many values read.
    count: usize,
    read: usize,
    /// The member whose name was read, and where its value begins.
    next: Option<(&'w Member, usize)>,
}

fn visit_members<'de, 'w, V: Visitor<'de>>(
    at: At<'w>,
    members: &'w Members,
    normal: &'w Normal<'w>,
    start: usize,
    visitor: V,
) -> Result<V::Value, Mismatch> {
    let mut object = ObjectMembers { at, members, normal, place: start + 1, count: 0, read: 0, next: None };
    let value = visitor.visit_map(&mut object)?;
    while object.next_member()?.is_some() {}
    normal.note(start, object.place + 1);
    whole(value, object.count, object.count - object.read)
}

impl<'w> ObjectMembers<'w> {
    /// Goes past a value that wasn't read, and reads the name of the next one.
    fn next_member(&mut self) -> Result<Option<&'w Member>, Mismatch> {
        if let Some((_, start)) = self.next.take() {
            self.place = self.normal.next(start);
        }
        if self.normal.sign(self.place) == b'}' {
            return Ok(None);
        }
        let Some((name, end)) = self.normal.string(self.place) else {
            return other_json();
        };
        let Some(member) = self.members.find_sorted(&name, self.count) else {
            return other_json();
        };
        self.next = Some((member, end + 1));
        self.count += 1;
        Ok(Some(member))
    }
}

impl<'de> MapAccess<'de> for ObjectMembers<'_> {
    type Error = Mismatch;

    fn next_key_seed<K: DeserializeSeed<'de>>(&mut self, seed: K) -> Result<Option<K::Value>, Mismatch> {
        let Some(member) = self.next_member()? else {
            return Ok(None);
        };
        seed.deserialize(Reader { at: self.at.to(&FIELD_NAME), json: Json::Name(&member.name) }).map(Some)
    }

    fn next_value_seed<T: DeserializeSeed<'de>>(&mut self, seed: T) -> Result<T::Value, Mismatch> {
        let Some((member, start)) = self.next.take() else {
            return Err(Mismatch::new("a map's value came before its key"));
        };
        let value = self.at.part(&member.shape).and_then(|at| {
            let value = seed.deserialize(Reader { at, json: Json::Value(self.normal, start) });
            value.map_err(|error| error.under(&member.name))
        });
        self.place = self.normal.next(start);
        self.read += 1;
        value
    }
}

/// The entries of a map, each an array of a key and its value.
struct Entries<'w> {
    entry: At<'w>,
    normal: &'w Normal<'w>,
    /// Where the next entry begins, or the map ends.
    place: usize,
    /// Where the value begins whose key was read.
    value: Option<usize>,
    /// How many entries were begun, and how many values read.
    begun: usize,
    count: usize,
}

fn visit_entries<'de, 'w, V: Visitor<'de>>(
    entry: At<'w>,
    normal: &'w Normal<'w>,
    start: usize,
    visitor: V,
) -> Result<V::Value, Mismatch> {
    let mut entries = Entries { entry, normal, place: start + 1, value: None, begun: 0, count: 0 };
    let value = visitor.visit_map(&mut entries)?;
    let mut rest = Values::Json(normal, entries.end_of_entry());
    let left = rest.left();
    if let Values::Json(_, place) = rest {
        normal.note(start, place + 1);
    }
    let length = entries.begun + left;
    whole(value, length, length - entries.count)
}

impl Entries<'_> {
    /// Reads a half of the entry: 0 is the key, and 1 the value.
    fn half<'de, T: DeserializeSeed<'de>>(&self, half: usize, start: usize, seed: T) -> Result<T::Value, Mismatch> {
        let Shape::Entry(halves) = self.entry.shape else {
            return other_json();
        };
        let half_of = Reader { at: self.entry.part(&halves[half])?, json: Json::Value(self.normal, start) };
        seed.deserialize(half_of).map_err(|error| error.under(half).under(self.count))
    }

    /// Where the entry after this one begins, or the map ends. A value that wasn't read is skipped.
    fn end_of_entry(&mut self) -> usize {
        if let Some(start) = self.value.take() {
            let end = self.normal.end_of(start) + 1;
            self.place = end + usize::from(self.normal.sign(end) == b',');
        }
        self.place
    }
}

impl<'de> MapAccess<'de> for Entries<'_> {
    type Error = Mismatch;

    fn next_key_seed<K: DeserializeSeed<'de>>(&mut self, seed: K) -> Result<Option<K::Value>, Mismatch> {
        let start = self.end_of_entry() + 1;
        if self.normal.sign(start - 1) == b']' {
            return Ok(None);
        }
        self.begun += 1;
        let key = self.half(0, start, seed);
        self.value = Some(self.normal.next(start));
        key.map(Some)
    }

    fn next_value_seed<T: DeserializeSeed<'de>>(&mut self, seed: T) -> Result<T::Value, Mismatch> {
        let Some(start) = self.value else {
            return Err(Mismatch::new("a map's value came before its key"));
        };
        let value = self.half(1, start, seed);
        self.end_of_entry();
        self.count += 1;
        value
    }
}

struct Variant<'w> {
    /// At the payload.
    at: At<'w>,
    name: &'w str,
    /// `Nothing` where the JSON is the name alone.
    json: Json<'w>,
}

impl<'de, 'w> de::EnumAccess<'de> for Variant<'w> {
    type Error = Mismatch;
    type Variant = Variant<'w>;

    fn variant_seed<V: DeserializeSeed<'de>>(self, seed: V) -> Result<(V::Value, Variant<'w>), Mismatch> {
        let name = Reader { at: self.at.to(&FIELD_NAME), json: Json::Name(self.name) };
        Ok((seed.deserialize(name)?, self))
    }
}

impl<'w> Variant<'w> {
    fn read<T>(self, read: impl FnOnce(Reader<'w>) -> Result<T, Mismatch>) -> Result<T, Mismatch> {
        let payload = Reader { at: self.at, json: self.json };
        read(payload).map_err(|error| error.under(self.name))
    }
}

impl<'de> VariantAccess<'de> for Variant<'_> {
    type Error = Mismatch;

    fn unit_variant(self) -> Result<(), Mismatch> {
        match self.json {
            Json::Nothing => Ok(()),
            _ => self.read(|payload| payload.entered().unfit("a variant without a payload")),
        }
    }

    fn newtype_variant_seed<T: DeserializeSeed<'de>>(self, seed: T) -> Result<T::Value, Mismatch> {
        self.read(|payload| seed.deserialize(payload))
    }

    fn tuple_variant<V: Visitor<'de>>(self, length: usize, visitor: V) -> Result<V::Value, Mismatch> {
        self.read(|payload| payload.deserialize_tuple(length, visitor))
    }

    fn struct_variant<V: Visitor<'de>>(
        self,
        fields: &'static [&'static str],
        visitor: V,
    ) -> Result<V::Value, Mismatch> {
        self.read(|payload| payload.deserialize_struct("", fields, visitor))
    }
}
