//! Bytes as `serde` values.
//!
//! `serde` passes a `Vec<u8>` as a list, and a set too, so [`Registry::encode`](crate::Registry::encode) doesn't accept a list at the
//! format `BYTES`. Mark such a field by `#[serde(with = "bcs_proved::bytes")]`, wrap it in [`Bytes`], or use the crate
//! `serde_bytes`. Arrays such as `[u8; 32]` need none of this.
//!
//! ```
//! use bcs_proved::{Bytes, Hex, Registry};
//! use serde::{Deserialize, Serialize};
//!
//! #[derive(Serialize, Deserialize, PartialEq, Debug)]
//! struct Note {
//!     #[serde(with = "bcs_proved::bytes")]
//!     memo: Vec<u8>,
//!     parts: Vec<Bytes>,
//!     id: [u8; 2],
//! }
//!
//! let registry = Registry::read(r#"{"Note":{"STRUCT":[{"memo":"BYTES"},{"parts":{"SEQ":"BYTES"}},{"id":"BYTES"}]}}"#)?;
//! let note = Note { memo: vec![7], parts: vec![Bytes(vec![8, 9])], id: [1, 2] };
//! let bytes = registry.encode("Note", &note)?;
//! assert_eq!(bytes, [1, 7, 1, 2, 8, 9, 2, 1, 2]);
//! assert_eq!(registry.decode::<Note>("Note", &bytes)?, note);
//!
//! assert_eq!(registry.encode(r#""BYTES""#, &Hex("0aff"))?, [2, 0x0a, 0xff]);
//! let error = registry.encode(r#""BYTES""#, &"0aff").unwrap_err();
//! assert_eq!(error.message(), "BYTES takes bytes, or Hex(…) for digits, not a string");
//! # Ok::<(), bcs_proved::Error>(())
//! ```
use crate::hex;
use serde::de::{self, Deserialize, Deserializer, SeqAccess, Visitor};
use serde::ser::{Error as _, Serialize, Serializer};
use std::fmt;
use std::marker::PhantomData;

/// Bytes, at `BYTES` and at lists and arrays of `U8`.
#[derive(Clone, Copy, Debug, Default, PartialEq, Eq, PartialOrd, Ord, Hash)]
pub struct Bytes<T = Vec<u8>>(pub T);

/// Bytes as hexadecimal digits of either case, two for each byte, without `0x`. Decoding returns lower-case digits.
#[derive(Clone, Copy, Debug, Default, PartialEq, Eq, PartialOrd, Ord, Hash)]
pub struct Hex<T = String>(pub T);

/// Serializes bytes: for `#[serde(with = "bcs_proved::bytes")]`.
pub fn serialize<T: AsRef<[u8]> + ?Sized, S: Serializer>(bytes: &T, serializer: S) -> Result<S::Ok, S::Error> {
    serializer.serialize_bytes(bytes.as_ref())
}

/// Deserializes bytes: for `#[serde(with = "bcs_proved::bytes")]`.
pub fn deserialize<'de, T: TryFrom<Vec<u8>>, D: Deserializer<'de>>(deserializer: D) -> Result<T, D::Error> {
    deserializer.deserialize_byte_buf(ByteVisitor(PhantomData))
}

struct ByteVisitor<T>(PhantomData<T>);

impl<'de, T: TryFrom<Vec<u8>>> Visitor<'de> for ByteVisitor<T> {
    type Value = T;

    fn expecting(&self, f: &mut fmt::Formatter<'_>) -> fmt::Result {
        f.write_str("bytes")
    }

    fn visit_bytes<E: de::Error>(self, bytes: &[u8]) -> Result<T, E> {
        self.visit_byte_buf(bytes.to_vec())
    }

    fn visit_byte_buf<E: de::Error>(self, bytes: Vec<u8>) -> Result<T, E> {
        let length = bytes.len();
        T::try_from(bytes).map_err(|_| E::custom(format_args!("the type doesn't take {length} bytes")))
    }

    /// What is flattened gets its bytes as a list.
    fn visit_seq<A: SeqAccess<'de>>(self, mut list: A) -> Result<T, A::Error> {
        let mut bytes = Vec::new();
        while let Some(byte) = list.next_element()? {
            bytes.push(byte);
        }
        self.visit_byte_buf(bytes)
    }
}

impl<T: AsRef<[u8]>> Serialize for Bytes<T> {
    fn serialize<S: Serializer>(&self, serializer: S) -> Result<S::Ok, S::Error> {
        serialize(&self.0, serializer)
    }
}

impl<'de, T: TryFrom<Vec<u8>>> Deserialize<'de> for Bytes<T> {
    fn deserialize<D: Deserializer<'de>>(deserializer: D) -> Result<Bytes<T>, D::Error> {
        deserialize(deserializer).map(Bytes)
    }
}

impl<T: AsRef<str>> Serialize for Hex<T> {
    fn serialize<S: Serializer>(&self, serializer: S) -> Result<S::Ok, S::Error> {
        match hex::bytes_of(self.0.as_ref()) {
            Some(bytes) => serializer.serialize_bytes(&bytes),
            None => Err(S::Error::custom("Hex takes two hexadecimal digits for each byte, without 0x")),
        }
    }
}

impl<'de> Deserialize<'de> for Hex {
    fn deserialize<D: Deserializer<'de>>(deserializer: D) -> Result<Hex, D::Error> {
        let bytes: Vec<u8> = deserialize(deserializer)?;
        let mut digits = String::new();
        hex::push_digits(&mut digits, &bytes);
        Ok(Hex(digits))
    }
}
