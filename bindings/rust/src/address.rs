//! Move's addresses, which registries of `bcs from-move` call `address`.
use serde::de::{Deserialize, Deserializer};
use serde::ser::{Serialize, Serializer};
use std::fmt;
use std::str::FromStr;

const LENGTH: usize = 32;

/// Text that isn't the number or the address that a type is parsed from.
#[derive(Clone, Copy, Debug, PartialEq, Eq)]
pub struct ParseError(pub(crate) &'static str);

impl fmt::Display for ParseError {
    fn fmt(&self, f: &mut fmt::Formatter<'_>) -> fmt::Result {
        write!(f, "expected {}", self.0)
    }
}

impl std::error::Error for ParseError {}

/// An address. Its text is `0x` and 64 hexadecimal digits; it is also parsed from fewer.
///
/// ```
/// use bcs_proved::{Address, Registry};
///
/// let registry = Registry::read(r#"{"address":{"NEWTYPESTRUCT":{"TUPLEARRAY":{"CONTENT":"U8","SIZE":32}}}}"#)?;
/// let address: Address = "0x1".parse()?;
/// let bytes = registry.encode("address", &address)?;
/// assert_eq!(bytes[31], 1);
/// let address: Address = registry.decode("address", &bytes)?;
/// assert_eq!(address.to_string(), format!("0x{:0>64}", 1));
/// # Ok::<(), Box<dyn std::error::Error>>(())
/// ```
#[derive(Clone, Copy, Default, PartialEq, Eq, PartialOrd, Ord, Hash)]
pub struct Address(pub [u8; LENGTH]);

impl fmt::Display for Address {
    fn fmt(&self, f: &mut fmt::Formatter<'_>) -> fmt::Result {
        f.write_str("0x")?;
        self.0.iter().try_for_each(|byte| write!(f, "{byte:02x}"))
    }
}

impl fmt::Debug for Address {
    fn fmt(&self, f: &mut fmt::Formatter<'_>) -> fmt::Result {
        fmt::Display::fmt(self, f)
    }
}

impl FromStr for Address {
    type Err = ParseError;

    fn from_str(text: &str) -> Result<Address, ParseError> {
        const EXPECTED: ParseError = ParseError("0x and 1 to 64 hexadecimal digits");
        let digits =
            text.strip_prefix("0x").filter(|digits| (1..=2 * LENGTH).contains(&digits.len())).ok_or(EXPECTED)?;
        let bytes = crate::hex::bytes_of(&format!("{digits:0>64}")).ok_or(EXPECTED)?;
        bytes.try_into().map(Address).map_err(|_| EXPECTED)
    }
}

impl Serialize for Address {
    fn serialize<S: Serializer>(&self, serializer: S) -> Result<S::Ok, S::Error> {
        serializer.serialize_newtype_struct("Address", &self.0)
    }
}

impl<'de> Deserialize<'de> for Address {
    fn deserialize<D: Deserializer<'de>>(deserializer: D) -> Result<Address, D::Error> {
        <[u8; LENGTH]>::deserialize(deserializer).map(Address)
    }
}
