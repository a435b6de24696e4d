//! Bytes that are digits in JSON, and as they are elsewhere.
use bcs_proved::Bytes;
use serde::de::{Deserialize, Deserializer, Error as _};
use serde::ser::{Serialize, Serializer};
use std::borrow::Cow;

#[derive(Clone, Debug, PartialEq)]
pub struct Digits<T>(pub T);

pub trait Octets: Sized {
    fn of(bytes: Vec<u8>) -> Option<Self>;
    fn bytes(&self) -> &[u8];
}

impl<const LENGTH: usize> Octets for [u8; LENGTH] {
    fn of(bytes: Vec<u8>) -> Option<Self> {
        bytes.try_into().ok()
    }

    fn bytes(&self) -> &[u8] {
        self
    }
}

impl Octets for Bytes {
    fn of(bytes: Vec<u8>) -> Option<Self> {
        Some(Bytes(bytes))
    }

    fn bytes(&self) -> &[u8] {
        &self.0
    }
}

pub fn digits(bytes: &[u8]) -> String {
    const DIGITS: &[u8; 16] = b"0123456789abcdef";
    let mut text = String::with_capacity(2 * bytes.len());
    text.extend(
        bytes.iter().flat_map(|byte| [byte >> 4, byte & 15]).map(|digit| char::from(DIGITS[usize::from(digit)])),
    );
    text
}

fn digit(sign: u8) -> Option<u8> {
    match sign {
        b'0'..=b'9' => Some(sign - b'0'),
        b'a'..=b'f' => Some(sign - b'a' + 10),
        b'A'..=b'F' => Some(sign - b'A' + 10),
        _ => None,
    }
}

pub fn bytes_of(digits: &str) -> Option<Vec<u8>> {
    let (pairs, []) = digits.as_bytes().as_chunks() else { return None };
    pairs.iter().map(|[high, low]| Some(digit(*high)? << 4 | digit(*low)?)).collect()
}

impl<T: Serialize + Octets> Serialize for Digits<T> {
    fn serialize<S: Serializer>(&self, serializer: S) -> Result<S::Ok, S::Error> {
        if serializer.is_human_readable() {
            serializer.serialize_str(&digits(self.0.bytes()))
        } else {
            self.0.serialize(serializer)
        }
    }
}

impl<'de, T: Deserialize<'de> + Octets> Deserialize<'de> for Digits<T> {
    fn deserialize<D: Deserializer<'de>>(deserializer: D) -> Result<Self, D::Error> {
        if !deserializer.is_human_readable() {
            return T::deserialize(deserializer).map(Digits);
        }
        let text = Cow::<str>::deserialize(deserializer)?;
        bytes_of(&text).and_then(T::of).map(Digits).ok_or_else(|| D::Error::custom("not digits of this many bytes"))
    }
}
