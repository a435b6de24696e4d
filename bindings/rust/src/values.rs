//! Values as `serde_json` holds them.
use crate::error::{Error, ErrorKind};
use crate::format::Format;
use crate::registry::Registry;
use crate::serde_in::value_of;
use crate::serde_out::json_of;
use crate::shapes::{At, Shapes, Walk};
use serde::Serialize;
use serde::de::DeserializeOwned;
use serde_json::Value;

/// Whether arrays and objects nest more than `levels` deep.
fn nests(value: &Value, levels: u32) -> bool {
    match value {
        Value::Array(values) => levels == 0 || values.iter().any(|value| nests(value, levels - 1)),
        Value::Object(members) => levels == 0 || members.values().any(|value| nests(value, levels - 1)),
        _ => false,
    }
}

/// With the feature `serde_json`.
impl Registry {
    /// The bytes of the value that a JSON value denotes. Numbers beyond 64 bits stand in it as strings.
    ///
    /// ```
    /// use bcs_proved::Registry;
    /// use serde_json::json;
    ///
    /// let registry = Registry::read(r#"{"Payment":{"STRUCT":[{"to":"STR"},{"amount":"U128"}]}}"#)?;
    /// let bytes = registry.encode_json_value("Payment", &json!({"to": "bob", "amount": "7"}))?;
    /// assert_eq!(bytes, b"\x03bob\x07\0\0\0\0\0\0\0\0\0\0\0\0\0\0\0");
    /// # Ok::<(), bcs_proved::Error>(())
    /// ```
    pub fn encode_json_value(&self, format: impl Into<Format>, value: &Value) -> Result<Vec<u8>, Error> {
        if nests(value, 127) {
            // Writing it would exhaust the stack. The library rejects any text that nests so deep.
            return self.encode_json(format, "[".repeat(128) + &"]".repeat(128));
        }
        self.encode_json(format, value.to_string())
    }

    /// The value whose bytes these are, all of them, in its normal form: numbers of 64 and 128 bits are strings.
    ///
    /// ```
    /// use bcs_proved::Registry;
    /// use serde_json::json;
    ///
    /// let registry = Registry::read(r#"{"Payment":{"STRUCT":[{"to":"STR"},{"amount":"U64"}]}}"#)?;
    /// let value = registry.decode_json_value("Payment", b"\x03bob\x07\0\0\0\0\0\0\0")?;
    /// assert_eq!(value, json!({"to": "bob", "amount": "7"}));
    /// # Ok::<(), bcs_proved::Error>(())
    /// ```
    pub fn decode_json_value(&self, format: impl Into<Format>, bytes: impl AsRef<[u8]>) -> Result<Value, Error> {
        Ok(json_value(&self.decode_json(format, bytes)?))
    }

    /// The bytes of a value of a `serde` type, by the format: the type of each part has to fit the format, whatever its value is.
    /// Anything else is rejected with its JSON Pointer, as [`ErrorKind::Value`](crate::ErrorKind::Value). The README of this crate
    /// has a table of the types that each format takes.
    ///
    /// `serialize` is called with `is_human_readable` false, since registries have the binary form of types.
    ///
    /// ```
    /// use bcs_proved::Registry;
    /// use serde::{Deserialize, Serialize};
    ///
    /// #[derive(Serialize, Deserialize, Debug, PartialEq)]
    /// struct Payment {
    ///     to: String,
    ///     amount: u64,
    /// }
    ///
    /// let registry = Registry::read(r#"{"Payment":{"STRUCT":[{"to":"STR"},{"amount":"U64"}]}}"#)?;
    /// let payment = Payment { to: "bob".into(), amount: 7 };
    /// let bytes = registry.encode("Payment", &payment)?;
    /// assert_eq!(bytes, b"\x03bob\x07\0\0\0\0\0\0\0");
    /// assert_eq!(registry.decode::<Payment>("Payment", &bytes)?, payment);
    ///
    /// let error = registry.encode("Payment", &("bob", 7)).unwrap_err();
    /// assert_eq!(error.to_string(), "refused: WrongType: STRUCT takes a struct, not a tuple");
    /// # Ok::<(), bcs_proved::Error>(())
    /// ```
    pub fn encode<T: Serialize + ?Sized>(&self, format: impl Into<Format>, value: &T) -> Result<Vec<u8>, Error> {
        let format = format.into();
        let has_stack = || self.has_stack();
        let limits = self.limits();
        let walk = self.walk(&has_stack, limits.nodes_of_value().into(), limits.nodes.is_some());
        let shape = walk.shapes.format(format.as_json());
        match json_of(value, At::new(&shape, &walk, limits.depth)) {
            Ok(text) => self.encode_json(format, text),
            // A format that the registry doesn't have is reported before what the value is.
            Err(mismatch) => self.check(format).and(Err(mismatch.into())),
        }
    }

    /// The value whose bytes these are, all of them, as a `serde` type. A type that doesn't fit the format is rejected with the JSON
    /// Pointer of the part, as [`ErrorKind::Value`](crate::ErrorKind::Value); so is one that leaves elements unread.
    ///
    /// A type that `serde` buffers, such as a flattened struct or an untagged enum, is deserialized more than once.
    ///
    /// ```
    /// use bcs_proved::{ErrorKind, Registry};
    ///
    /// let registry = Registry::read("{}")?;
    /// let pair = r#"{"TUPLE":["U8","U64"]}"#;
    /// let bytes = [7, 8, 0, 0, 0, 0, 0, 0, 0];
    /// assert_eq!(registry.decode::<(u8, u64)>(pair, bytes)?, (7, 8));
    ///
    /// let error = registry.decode::<(u8, u32)>(pair, bytes).unwrap_err();
    /// assert_eq!((error.kind(), error.at()), (ErrorKind::Value, Some("/1")));
    /// assert_eq!(error.message(), "u32 doesn't hold every U64");
    /// # Ok::<(), bcs_proved::Error>(())
    /// ```
    pub fn decode<T: DeserializeOwned>(&self, format: impl Into<Format>, bytes: impl AsRef<[u8]>) -> Result<T, Error> {
        let format = format.into();
        let text = self.decode_json(&format, bytes)?;
        let has_stack = || self.has_stack();
        let walk = self.walk(&has_stack, u64::MAX, true);
        let shape = walk.shapes.format(format.as_json());
        let at = At::new(&shape, &walk, self.limits().depth);
        let read = || value_of::<T>(&text, at);
        let value = read()?;
        walk.probe.check(|| read().map(drop))?;
        Ok(value)
    }

    /// The value at the beginning of the bytes, as a `serde` type, and its length. The bytes that follow aren't read.
    ///
    /// ```
    /// let registry = bcs_proved::Registry::read("{}")?;
    /// assert_eq!(registry.decode_prefix::<u16>(r#""U16""#, [1, 2, 3])?, (513, 2));
    /// # Ok::<(), bcs_proved::Error>(())
    /// ```
    pub fn decode_prefix<T: DeserializeOwned>(
        &self,
        format: impl Into<Format>,
        bytes: impl AsRef<[u8]>,
    ) -> Result<(T, usize), Error> {
        let (format, bytes) = (format.into(), bytes.as_ref());
        let (limited, length) = self.prefix(&format, bytes)?;
        Ok((limited.decode(&format, &bytes[..length])?, length))
    }

    fn walk<'w>(&'w self, has_stack: &'w dyn Fn() -> bool, nodes: u64, counts_octets: bool) -> Walk<'w> {
        Walk::new(self.shapes.get_or_init(|| Shapes::read(self.text())), has_stack, nodes, counts_octets)
    }

    /// Whether the thread has stack left. Rust doesn't know, and the library does: no call succeeds without some of it.
    fn has_stack(&self) -> bool {
        self.check(r#""UNIT""#) != Err(ErrorKind::Stack.into())
    }
}

fn json_value(normal: &str) -> Value {
    serde_json::from_str(normal).expect("the library prints JSON")
}
