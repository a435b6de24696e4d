use crate::json::push_string;
use std::fmt;

/// A format of a registry: what a value is read as.
///
/// Calls that need a format also accept a string, and read it like the program `bcs`: one that begins with `{` or `"` is a
/// format's JSON, and any other is a container's name.
///
/// ```
/// use bcs_proved::{Format, Registry};
///
/// let registry = Registry::read(r#"{"Wallet":{"NEWTYPESTRUCT":{"SEQ":"U64"}}}"#)?;
/// assert_eq!(registry.encode_json("Wallet", "[7]")?, [1, 7, 0, 0, 0, 0, 0, 0, 0]);
///
/// assert_eq!(registry.encode_json("\"U16\"", "7")?, [7, 0]);
///
/// let pair = Format::json(r#"{"TUPLE":["U8",{"TYPENAME":"Wallet"}]}"#);
/// assert_eq!(registry.encode_json(&pair, "[9, []]")?, [9, 0]);
/// # Ok::<(), bcs_proved::Error>(())
/// ```
///
/// It isn't validated before it is used: [`Registry::check`](crate::Registry::check) says whether a registry has it.
#[derive(Clone)]
pub struct Format {
    json: Vec<u8>,
}

impl Format {
    /// The container of this name, whatever it begins with.
    pub fn named(name: &str) -> Format {
        let mut json = String::with_capacity(name.len() + 16);
        json.push_str(r#"{"TYPENAME":"#);
        push_string(&mut json, name);
        json.push('}');
        Format { json: json.into() }
    }

    /// The format that a JSON text writes down: `"U64"` with its quotation marks, or such as `{"SEQ":"U8"}`.
    pub fn json(text: impl AsRef<[u8]>) -> Format {
        Format { json: text.as_ref().to_vec() }
    }

    /// Its JSON text.
    pub fn as_json(&self) -> &[u8] {
        &self.json
    }
}

impl fmt::Debug for Format {
    fn fmt(&self, f: &mut fmt::Formatter<'_>) -> fmt::Result {
        write!(f, "Format({})", String::from_utf8_lossy(&self.json))
    }
}

/// The format that a text which begins with `{` or `"` writes down, or else the container of this name.
impl From<&str> for Format {
    fn from(text: &str) -> Format {
        if text.starts_with(['{', '"']) { Format::json(text) } else { Format::named(text) }
    }
}

/// The same of its text.
impl From<&String> for Format {
    fn from(text: &String) -> Format {
        text.as_str().into()
    }
}

/// The same of its text.
impl From<String> for Format {
    fn from(text: String) -> Format {
        text.as_str().into()
    }
}

impl From<&Format> for Format {
    fn from(format: &Format) -> Format {
        format.clone()
    }
}

#[cfg(test)]
mod tests {
    use super::Format;

    #[test]
    fn names_are_escaped() {
        let format = Format::named("a\"\\\n\u{1f}/\u{7f}é");
        let json = std::str::from_utf8(format.as_json()).unwrap();
        assert_eq!(json, "{\"TYPENAME\":\"a\\\"\\\\\\u000a\\u001f/\u{7f}é\"}");
    }
}
