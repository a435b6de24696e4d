//! Values of `serde` types as the JSON that the library reads, by the format: what isn't of the format's kind is rejected
//! here, and everything else (lengths, fields, variants, keys) by the library.
use crate::hex;
use crate::integers::{self, Integer, U8};
use crate::json::push_string;
use crate::mismatch::Mismatch;
use crate::shapes::{At, FIELD_NAME, Member, Members, OCTET, PLAIN_LIST, Shape, VOID};
use serde::ser::{self, Serialize, Serializer};
use std::fmt::{self, Write};

/// The JSON of a value.
pub(crate) fn json_of<T: Serialize + ?Sized>(value: &T, at: At) -> Result<String, Mismatch> {
    let mut out = String::new();
    value.serialize(Writer { at, nested: 0, is_octet: false, out: &mut out })?;
    if at.walk.has_failed() {
        return Err(Mismatch::new("the type's Serialize went on after the error of a part"));
    }
    Ok(out)
}

/// How deep arrays and objects may nest, which the library checks, too. Here it keeps a value from exhausting the stack.
const NESTING: u32 = 100;

/// The JSON of a value with shared parts may be huge, so it ends here.
const MOST_JSON: usize = if cfg!(test) { 1 << 20 } else { 1 << 30 };

/// What the library rejects wherever it is: it replaces a value that is rejected in any case.
const NO_VALUE: &str = "0.5";

/// What a value is.
#[derive(Clone, Copy, PartialEq)]
enum Kind {
    Unit,
    Bool,
    Integer,
    Text,
    Bytes,
    None,
    Variant,
    /// What no format has.
    Float,
    Char,
}

/// Whether a value of this kind without parts is one of the format's kind.
fn fits(shape: &Shape, kind: Kind) -> bool {
    match kind {
        Kind::Unit => matches!(shape, Shape::Unit),
        Kind::Bool => matches!(shape, Shape::Bool),
        Kind::Integer => matches!(shape, Shape::Integer(_)),
        Kind::Text => matches!(shape, Shape::Str | Shape::FieldName),
        Kind::Bytes => matches!(shape, Shape::Bytes) || shape.is_octets(),
        Kind::None => matches!(shape, Shape::Option(_)),
        Kind::Variant => matches!(shape, Shape::Enum(_)),
        Kind::Float | Kind::Char => false,
    }
}

/// Writes a value of the format.
pub(crate) struct Writer<'w> {
    at: At<'w>,
    /// How many arrays and objects are open.
    nested: u32,
    /// Whether it is a byte of a list that is written as hexadecimal digits. Only a `u8` fits there.
    is_octet: bool,
    out: &'w mut String,
}

impl<'w> Writer<'w> {
    /// Writes a value without parts.
    fn put(self, kind: Kind, found: &str, json: &str) -> Result<(), Mismatch> {
        self.put_by(kind, found, |out| out.push_str(json))
    }

    #[inline]
    fn put_by(self, kind: Kind, found: &str, put: impl FnOnce(&mut String)) -> Result<(), Mismatch> {
        match self.at.entered().shape {
            Shape::Void => self.out.push_str(NO_VALUE),
            shape if fits(shape, kind) => put(self.out),
            shape => return Err(Mismatch::unfit(shape, found)),
        }
        Ok(())
    }

    /// Writes an integer. Its type has to fit the format, whatever this one is. JSON numbers have at most 64 bits.
    fn put_integer(mut self, integer: Integer, number: impl fmt::Display) -> Result<(), Mismatch> {
        self.at = self.at.entered();
        match self.at.shape {
            Shape::Integer(format) if format.holds(integer) => write!(self.out, "\"{number}\"").map_err(Mismatch::new),
            Shape::Integer(format) => Err(Mismatch::narrow(format.format, integer.rust)),
            _ => self.put(Kind::Integer, &integer.found(), ""),
        }
    }

    /// At a part of the value.
    fn part<'a>(&'a mut self, shape: &'a Shape, is_octet: bool) -> Result<Writer<'a>, Mismatch> {
        if self.out.len() > MOST_JSON {
            return Err(Mismatch::new("the value would be more than 1 GiB of JSON"));
        }
        let at = if is_octet { self.at.octet(shape)? } else { self.at.part(shape)? };
        Ok(Writer { at, nested: self.nested, is_octet, out: &mut *self.out })
    }

    /// Writes a part of the value. The code of a type may drop the error of a part, and would have a value without it.
    fn put_part<T: Serialize + ?Sized>(&mut self, shape: &Shape, is_octet: bool, value: &T) -> Result<(), Mismatch> {
        let walk = self.at.walk;
        self.part(shape, is_octet).and_then(|part| value.serialize(part)).inspect_err(|_| walk.fail())
    }

    /// Opens an array or an object.
    fn open(&mut self, sign: char) -> Result<(), Mismatch> {
        if self.nested == NESTING {
            return Err(Mismatch::too_nested());
        }
        self.nested += 1;
        self.out.push(sign);
        Ok(())
    }

    /// Writes an option that has a value.
    fn put_some<T: Serialize + ?Sized>(mut self, content: &'w Shape, value: &T) -> Result<(), Mismatch> {
        self.open('{')?;
        self.out.push_str("\"some\":");
        self.put_part(content, false, value).map_err(|error| error.under("some"))?;
        self.out.push('}');
        Ok(())
    }

    /// At the payload of a variant, whose object is open then. `end_variant` closes it.
    fn variant(mut self, name: &str) -> Result<Writer<'w>, Mismatch> {
        let at = self.at.entered();
        let variants = match at.shape {
            Shape::Enum(variants) => Some(variants),
            Shape::Void => None,
            shape => return Err(Mismatch::unfit(shape, "a variant")),
        };
        let variant = variants.and_then(|variants| variants.find(name, 0));
        self.at = match variants {
            Some(_) => at.part(variant.map_or(&VOID, |variant| &variant.shape))?,
            None => at,
        };
        self.open('{')?;
        push_head(self.out, name, variant);
        Ok(self)
    }

    fn items(mut self, found: &str, variant: Option<&'static str>) -> Result<Items<'w>, Mismatch> {
        self.at = self.at.entered();
        let parts = match self.at.shape {
            Shape::Seq(content) | Shape::Array(content) if self.at.shape.is_octets() => Parts::Octets(content),
            Shape::Seq(content) | Shape::Array(content) | Shape::Map(content) => Parts::Same(content),
            Shape::Tuple(all) => Parts::Own(all),
            Shape::Entry(halves) => Parts::Own(&halves[..]),
            Shape::Bytes => Parts::Octets(&OCTET),
            Shape::Void => Parts::Void,
            shape => return Err(Mismatch::unfit(shape, found)),
        };
        match parts {
            Parts::Octets(_) => self.out.push('"'),
            Parts::Void => self.out.push_str(NO_VALUE),
            _ => self.open('[')?,
        }
        Ok(Items { writer: self, parts, count: 0, variant })
    }

    fn fields(mut self, found: &str, variant: Option<&'static str>) -> Result<Fields<'w>, Mismatch> {
        self.at = self.at.entered();
        let fields = match self.at.shape {
            Shape::Struct(fields) => Some(fields),
            Shape::Void => None,
            shape => return Err(Mismatch::unfit(shape, found)),
        };
        match fields {
            Some(_) => self.open('{')?,
            None => self.out.push_str(NO_VALUE),
        }
        Ok(Fields { writer: self, fields, count: 0, known: 0, variant })
    }
}

/// Adds the name of a member, which may be unknown, and a colon.
fn push_head(out: &mut String, name: &str, member: Option<&Member>) {
    match member {
        Some(member) => out.push_str(&member.head),
        None => {
            push_string(out, name);
            out.push(':');
        }
    }
}

/// Closes the object of a variant, if there is one.
fn end_variant(variant: Option<&str>, out: &mut String) {
    if variant.is_some() {
        out.push('}');
    }
}

/// The error of a part, below the variant that has it.
fn in_variant(variant: Option<&str>, error: Mismatch) -> Mismatch {
    match variant {
        Some(name) => error.under(name),
        None => error,
    }
}

macro_rules! integers {
    ($($name:ident: $number:ty, $integer:ident;)*) => {
        $(fn $name(self, number: $number) -> Result<(), Mismatch> {
            self.put_integer(integers::$integer, number)
        })*
    };
}

impl<'w> Serializer for Writer<'w> {
    type Ok = ();
    type Error = Mismatch;
    type SerializeSeq = Items<'w>;
    type SerializeTuple = Items<'w>;
    type SerializeTupleStruct = Items<'w>;
    type SerializeTupleVariant = Items<'w>;
    type SerializeMap = Entries<'w>;
    type SerializeStruct = Fields<'w>;
    type SerializeStructVariant = Fields<'w>;

    integers! {
        serialize_i8: i8, I8;
        serialize_i16: i16, I16;
        serialize_i32: i32, I32;
        serialize_i64: i64, I64;
        serialize_i128: i128, I128;
        serialize_u16: u16, U16;
        serialize_u32: u32, U32;
        serialize_u64: u64, U64;
        serialize_u128: u128, U128;
    }

    fn serialize_bool(self, truth: bool) -> Result<(), Mismatch> {
        self.put(Kind::Bool, "a bool", if truth { "true" } else { "false" })
    }

    fn serialize_f32(self, _: f32) -> Result<(), Mismatch> {
        self.put(Kind::Float, "an f32", "")
    }

    fn serialize_f64(self, _: f64) -> Result<(), Mismatch> {
        self.put(Kind::Float, "an f64", "")
    }

    fn serialize_char(self, _: char) -> Result<(), Mismatch> {
        self.put(Kind::Char, "a char", "")
    }

    /// Registries have the binary form of types that have two, such as addresses.
    fn is_human_readable(&self) -> bool {
        false
    }

    #[inline]
    fn serialize_u8(self, number: u8) -> Result<(), Mismatch> {
        match self.at.shape {
            Shape::Octet | Shape::Integer(U8) if self.is_octet => hex::push_byte(self.out, number),
            _ => self.put_integer(U8, number)?,
        }
        Ok(())
    }

    fn serialize_str(self, text: &str) -> Result<(), Mismatch> {
        self.put_by(Kind::Text, "a string", |out| push_string(out, text))
    }

    fn serialize_bytes(mut self, bytes: &[u8]) -> Result<(), Mismatch> {
        self.at = self.at.entered();
        if !fits(self.at.shape, Kind::Bytes) {
            return self.put(Kind::Bytes, "bytes", "");
        }
        if self.at.shape.is_octets() {
            self.at.walk.count_octets(bytes.len())?;
        }
        self.out.push('"');
        hex::push_digits(self.out, bytes);
        self.out.push('"');
        Ok(())
    }

    fn serialize_none(self) -> Result<(), Mismatch> {
        self.put(Kind::None, "None", "null")
    }

    fn serialize_some<T: Serialize + ?Sized>(mut self, value: &T) -> Result<(), Mismatch> {
        self.at = self.at.entered();
        match self.at.shape {
            Shape::Option(content) => self.put_some(content, value),
            _ => self.put(Kind::None, "Some", "null"),
        }
    }

    fn serialize_unit(self) -> Result<(), Mismatch> {
        self.put(Kind::Unit, "()", "null")
    }

    fn serialize_unit_struct(self, _: &'static str) -> Result<(), Mismatch> {
        self.put(Kind::Unit, "a unit struct", "null")
    }

    fn serialize_unit_variant(self, _: &'static str, _: u32, variant: &'static str) -> Result<(), Mismatch> {
        self.put_by(Kind::Variant, "a variant", |out| push_string(out, variant))
    }

    fn serialize_newtype_struct<T: Serialize + ?Sized>(self, _: &'static str, value: &T) -> Result<(), Mismatch> {
        value.serialize(self)
    }

    fn serialize_newtype_variant<T: Serialize + ?Sized>(
        self,
        _: &'static str,
        _: u32,
        variant: &'static str,
        value: &T,
    ) -> Result<(), Mismatch> {
        let payload = self.variant(variant)?;
        let part = Writer { out: &mut *payload.out, ..payload };
        value.serialize(part).map_err(|error| error.under(variant))?;
        payload.out.push('}');
        Ok(())
    }

    /// A set is a list for `serde`, too, and has another order in each run, so `BYTES` takes none.
    fn serialize_seq(mut self, _: Option<usize>) -> Result<Items<'w>, Mismatch> {
        self.at = self.at.entered();
        match self.at.shape {
            Shape::Bytes => Err(Mismatch::unfit(self.at.shape, PLAIN_LIST)),
            _ => self.items("a list", None),
        }
    }

    fn serialize_tuple(self, _: usize) -> Result<Items<'w>, Mismatch> {
        self.items("a tuple", None)
    }

    fn serialize_tuple_struct(self, _: &'static str, _: usize) -> Result<Items<'w>, Mismatch> {
        self.items("a tuple struct", None)
    }

    fn serialize_tuple_variant(
        self,
        _: &'static str,
        _: u32,
        variant: &'static str,
        _: usize,
    ) -> Result<Items<'w>, Mismatch> {
        self.variant(variant)?.items("a tuple", Some(variant)).map_err(|error| error.under(variant))
    }

    fn serialize_map(mut self, _: Option<usize>) -> Result<Entries<'w>, Mismatch> {
        self.at = self.at.entered();
        match self.at.shape {
            Shape::Map(entry) => {
                self.open('[')?;
                Ok(Entries::Pairs { writer: self, entry, count: 0, has_key: false })
            }
            _ => Ok(Entries::Fields { fields: self.fields("a map", None)?, name: None }),
        }
    }

    fn serialize_struct(self, _: &'static str, _: usize) -> Result<Fields<'w>, Mismatch> {
        self.fields("a struct", None)
    }

    fn serialize_struct_variant(
        self,
        _: &'static str,
        _: u32,
        variant: &'static str,
        _: usize,
    ) -> Result<Fields<'w>, Mismatch> {
        self.variant(variant)?.fields("a struct", Some(variant)).map_err(|error| error.under(variant))
    }
}

/// The formats of a list's elements.
#[derive(Clone, Copy)]
enum Parts<'w> {
    Same(&'w Shape),
    Own(&'w [Shape]),
    /// Bytes, as hexadecimal digits.
    Octets(&'w Shape),
    Void,
}

/// Writes a list, of a variant if there is one.
pub(crate) struct Items<'w> {
    writer: Writer<'w>,
    parts: Parts<'w>,
    count: usize,
    variant: Option<&'static str>,
}

impl Items<'_> {
    fn item<T: Serialize + ?Sized>(&mut self, value: &T) -> Result<(), Mismatch> {
        let (shape, is_octet) = match self.parts {
            Parts::Same(shape) => (shape, false),
            Parts::Own(all) => (all.get(self.count).unwrap_or(&VOID), false),
            Parts::Octets(shape) => (shape, true),
            Parts::Void => return Ok(()),
        };
        if self.count > 0 && !is_octet {
            self.writer.out.push(',');
        }
        self.writer
            .put_part(shape, is_octet, value)
            .map_err(|error| in_variant(self.variant, error.under(self.count)))?;
        self.count += 1;
        Ok(())
    }

    fn finish(self) {
        match self.parts {
            Parts::Octets(_) => self.writer.out.push('"'),
            Parts::Void => {}
            _ => self.writer.out.push(']'),
        }
        end_variant(self.variant, self.writer.out);
    }
}

macro_rules! items {
    ($($part:ident: $trait:ident,)*) => {
        $(impl ser::$trait for Items<'_> {
            type Ok = ();
            type Error = Mismatch;

            fn $part<T: Serialize + ?Sized>(&mut self, value: &T) -> Result<(), Mismatch> {
                self.item(value)
            }

            fn end(self) -> Result<(), Mismatch> {
                self.finish();
                Ok(())
            }
        })*
    };
}

items! {
    serialize_element: SerializeSeq,
    serialize_element: SerializeTuple,
    serialize_field: SerializeTupleStruct,
    serialize_field: SerializeTupleVariant,
}

/// Writes fields, of a variant if there is one.
pub(crate) struct Fields<'w> {
    writer: Writer<'w>,
    /// `None` where the library rejects every value.
    fields: Option<&'w Members>,
    count: usize,
    /// How many of them the registry has.
    known: usize,
    variant: Option<&'static str>,
}

impl Fields<'_> {
    fn field<T: Serialize + ?Sized>(&mut self, name: &str, value: &T) -> Result<(), Mismatch> {
        let Some(fields) = self.fields else {
            return Ok(());
        };
        let field = fields.find(name, self.count);
        self.known += usize::from(field.is_some());
        if self.count > 0 {
            self.writer.out.push(',');
        }
        push_head(self.writer.out, name, field);
        let shape = field.map_or(&VOID, |field| &field.shape);
        self.writer.put_part(shape, false, value).map_err(|error| in_variant(self.variant, error.under(name)))?;
        self.count += 1;
        Ok(())
    }

    /// Of two members with one name the library reads the last. So a field that comes twice is rejected here: either there
    /// are more than the registry has, or another is missing.
    fn finish(self) -> Result<(), Mismatch> {
        if let Some(fields) = self.fields {
            if self.known > fields.len() {
                let error = Mismatch::new("STRUCT takes each field once");
                return Err(in_variant(self.variant, error));
            }
            self.writer.out.push('}');
        }
        end_variant(self.variant, self.writer.out);
        Ok(())
    }
}

macro_rules! fields {
    ($($trait:ident,)*) => {
        $(impl ser::$trait for Fields<'_> {
            type Ok = ();
            type Error = Mismatch;

            fn serialize_field<T: Serialize + ?Sized>(&mut self, name: &'static str, value: &T) -> Result<(), Mismatch> {
                self.field(name, value)
            }

            fn end(self) -> Result<(), Mismatch> {
                self.finish()
            }
        })*
    };
}

fields! { SerializeStruct, SerializeStructVariant, }

/// Writes a map: an array of pairs, or the fields of a struct, which is a map if it has flattened parts.
pub(crate) enum Entries<'w> {
    Pairs { writer: Writer<'w>, entry: &'w Shape, count: usize, has_key: bool },
    Fields { fields: Fields<'w>, name: Option<String> },
}

impl Entries<'_> {
    fn has_key(&self) -> bool {
        match self {
            Entries::Pairs { has_key, .. } => *has_key,
            Entries::Fields { name, .. } => name.is_some(),
        }
    }
}

/// A key or a value of a map's entry.
fn put_half<T: Serialize + ?Sized>(
    writer: &mut Writer,
    entry: &Shape,
    half: usize,
    count: usize,
    value: &T,
) -> Result<(), Mismatch> {
    let Shape::Entry(halves) = entry else {
        return Err(Mismatch::unfit(entry, "a map"));
    };
    writer.put_part(&halves[half], false, value).map_err(|error| error.under(half).under(count))
}

impl ser::SerializeMap for Entries<'_> {
    type Ok = ();
    type Error = Mismatch;

    fn serialize_key<T: Serialize + ?Sized>(&mut self, key: &T) -> Result<(), Mismatch> {
        if self.has_key() {
            return Err(Mismatch::new("a map's key has no value"));
        }
        match self {
            Entries::Pairs { writer, entry, count, has_key } => {
                if *count > 0 {
                    writer.out.push(',');
                }
                writer.open('[')?;
                put_half(writer, entry, 0, *count, key)?;
                writer.out.push(',');
                *has_key = true;
            }
            Entries::Fields { fields: Fields { fields: None, .. }, name } => *name = Some(String::new()),
            Entries::Fields { fields, name } => {
                let mut text = String::new();
                let at = fields.writer.at.to(&FIELD_NAME);
                key.serialize(Writer { at, nested: fields.writer.nested, is_octet: false, out: &mut text })?;
                *name = Some(serde_json::from_str(&text).map_err(Mismatch::new)?);
            }
        }
        Ok(())
    }

    fn serialize_value<T: Serialize + ?Sized>(&mut self, value: &T) -> Result<(), Mismatch> {
        if !self.has_key() {
            return Err(Mismatch::new("a map's value came before its key"));
        }
        match self {
            Entries::Pairs { writer, entry, count, has_key } => {
                put_half(writer, entry, 1, *count, value)?;
                writer.out.push(']');
                writer.nested -= 1;
                *count += 1;
                *has_key = false;
                Ok(())
            }
            Entries::Fields { fields, name } => fields.field(&name.take().unwrap_or_default(), value),
        }
    }

    fn end(self) -> Result<(), Mismatch> {
        if self.has_key() {
            return Err(Mismatch::new("a map's key has no value"));
        }
        match self {
            Entries::Pairs { writer, .. } => {
                writer.out.push(']');
                Ok(())
            }
            Entries::Fields { fields, .. } => fields.finish(),
        }
    }
}

#[cfg(test)]
mod tests {
    use crate::{Bytes, ErrorKind, Registry, TextFault};

    #[test]
    fn nodes_have_a_default_limit_and_bytes_have_none() {
        let registry = Registry::read("{}").unwrap();
        let octets = vec![7_u8; 1 << 13];
        for format in [r#"{"SEQ":"U8"}"#, r#"{"TUPLEARRAY":{"CONTENT":"U8","SIZE":8192}}"#] {
            assert!(registry.encode(format, &octets).is_ok());
            assert!(registry.encode(format, &Bytes(octets.clone())).is_ok());
        }
        assert!(registry.encode(r#"{"SEQ":"UNIT"}"#, &vec![(); 1 << 12]).is_ok());
        let error = registry.encode(r#"{"SEQ":"UNIT"}"#, &vec![(); 1 << 13]).unwrap_err();
        assert_eq!(error.kind(), ErrorKind::Text(TextFault::TooManyNodes));
    }

    #[test]
    fn shared_text_ends_at_the_greatest_size() {
        let registry = Registry::read("{}").unwrap();
        let text = "a".repeat(1 << 14);
        assert!(registry.encode(r#"{"SEQ":"STR"}"#, &vec![text.as_str(); 63]).is_ok());
        let error = registry.encode(r#"{"SEQ":"STR"}"#, &vec![text.as_str(); 1 << 20]).unwrap_err();
        assert_eq!((error.kind(), error.at()), (ErrorKind::Value, Some("/64")));
        assert_eq!(error.message(), "the value would be more than 1 GiB of JSON");
    }
}
