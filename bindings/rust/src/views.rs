use crate::error::{Error, ErrorKind};
use crate::format::Format;

/// What [`Registry::explain_with`](crate::Registry::explain_with) shows of a value in addition: the pieces inside of byte strings, and
/// Move's numbers.
///
/// A name is one that [`Registry::explain`](crate::Registry::explain) prints. `[*]` in it stands for each index, such as `[0]`.
///
/// ```
/// use bcs_proved::Views;
///
/// let views = Views::new()
///     .call(".payload::EntryFunction.args", "0x1::aptos_account::transfer")
///     .inside(".signatures[*]", "Signature")
///     .address("AccountAddress");
/// ```
///
/// Containers called `address`, `u256` and `i256` are shown as Move's without views.
#[derive(Clone, Debug, Default)]
pub struct Views {
    views: Vec<View>,
}

/// What is wrong with the name of a view.
pub(crate) const EXPECTED_NAME: &str = "expected a name such as .payload.args[1]";

#[derive(Clone, Debug)]
pub(crate) enum View {
    Inside(String, Format),
    Call(String, String),
    /// How Move shows a container, and the container's name.
    Shown(&'static str, String),
}

impl Views {
    /// No views.
    pub fn new() -> Views {
        Views::default()
    }

    /// Explains the byte string of this name piece by piece, as a value of this format. It has to be of the format `BYTES`, `STR`,
    /// or a list or an array of `U8`.
    #[must_use]
    pub fn inside(self, name: impl Into<String>, format: impl Into<Format>) -> Views {
        self.with(View::Inside(name.into(), format.into()))
    }

    /// Explains the elements of the list of this name as the arguments of a function, in a registry that
    /// [`registry_of_modules`](crate::registry_of_modules) made for it. An empty function is the one that is called.
    #[must_use]
    pub fn call(self, name: impl Into<String>, function: impl Into<String>) -> Views {
        self.with(View::Call(name.into(), function.into()))
    }

    /// Shows values of this container, a newtype of 32 `U8`, as an address: `0x..`.
    #[must_use]
    pub fn address(self, container: impl Into<String>) -> Views {
        self.with(View::Shown("address", container.into()))
    }

    /// Shows values of this container, a newtype of 32 `U8`, as an unsigned number.
    #[must_use]
    pub fn u256(self, container: impl Into<String>) -> Views {
        self.with(View::Shown("u256", container.into()))
    }

    /// Shows values of this container, a newtype of 32 `U8`, as a signed number.
    #[must_use]
    pub fn i256(self, container: impl Into<String>) -> Views {
        self.with(View::Shown("i256", container.into()))
    }

    fn with(mut self, view: View) -> Views {
        self.views.push(view);
        self
    }

    pub(crate) fn iter(&self) -> impl Iterator<Item = &View> {
        self.views.iter()
    }

    /// The views, a line for each, as the library takes them.
    pub(crate) fn lines(&self) -> Result<Vec<u8>, Error> {
        let mut lines = Vec::new();
        for view in &self.views {
            if !matches!(view, View::Shown(..)) && !ends_outside_quotes(view.name()) {
                return Err(view.refused_name(EXPECTED_NAME));
            }
            let line = view.line();
            if line.contains(&b'\n') {
                return Err(view.refused_name("a line feed, which no view may have"));
            }
            lines.extend([line.as_slice(), b"\n"].concat());
        }
        lines.pop();
        Ok(lines)
    }
}

impl View {
    /// The view as the library takes it.
    pub(crate) fn line(&self) -> Vec<u8> {
        let rest = match self {
            View::Inside(_, format) => [b"=", format.as_json()].concat(),
            View::Call(_, function) => [b"=", function.as_bytes()].concat(),
            View::Shown(..) => Vec::new(),
        };
        [self.word().as_bytes(), b" ", self.name().as_bytes(), &rest].concat()
    }

    fn word(&self) -> &'static str {
        match self {
            View::Inside(..) => "inside",
            View::Call(..) => "call",
            View::Shown(word, _) => word,
        }
    }

    fn name(&self) -> &str {
        match self {
            View::Inside(name, _) | View::Call(name, _) | View::Shown(_, name) => name,
        }
    }

    /// The format, if the view has one.
    pub(crate) fn format(&self) -> Option<&Format> {
        match self {
            View::Inside(_, format) => Some(format),
            View::Call(..) | View::Shown(..) => None,
        }
    }

    /// The error for the view's name.
    pub(crate) fn refused_name(&self, message: &str) -> Error {
        let message = format!("{}: {message}", self.word());
        Error::from(ErrorKind::Path).found(Some((self.name().to_owned(), message)))
    }

    /// The error of the view's format, function or container, with the view's name.
    pub(crate) fn refused(&self, error: Error) -> Error {
        let missing = match self {
            View::Inside(..) => "the registry has no such format",
            View::Call(..) => "the registry has no arguments of this function",
            View::Shown(..) => "the registry has no newtype of 32 bytes with this name",
        };
        let (at, problem) = match error.at() {
            Some(at) => (at.to_owned(), error.message()),
            None => (String::new(), missing),
        };
        let message = format!("{} {}: {problem}", self.word(), self.name());
        error.found(Some((at, message)))
    }
}

/// Whether a `=` behind the name ends it, since the name has none outside quotes.
fn ends_outside_quotes(name: &str) -> bool {
    let (mut is_quoted, mut is_escaped) = (false, false);
    for sign in name.chars() {
        match sign {
            _ if is_escaped => is_escaped = false,
            '\\' if is_quoted => is_escaped = true,
            '"' => is_quoted = !is_quoted,
            '=' if !is_quoted => return false,
            _ => {}
        }
    }
    !is_quoted
}

#[cfg(test)]
mod tests {
    use super::Views;
    use crate::{ErrorKind, Format};

    #[test]
    fn views_are_lines() {
        let views = Views::new()
            .inside(".a[*]", "x=y")
            .inside(r#"."=\\".b"#, r#"{"SEQ":"U8"}"#)
            .call(".args", "0x1::m::f<u8, u8>")
            .address("A")
            .u256("B = 7")
            .i256("C");
        let lines = r#"inside .a[*]={"TYPENAME":"x=y"}
inside ."=\\".b={"SEQ":"U8"}
call .args=0x1::m::f<u8, u8>
address A
u256 B = 7
i256 C"#;
        assert_eq!(String::from_utf8(views.lines().unwrap()).unwrap(), lines);
        assert!(Views::new().lines().unwrap().is_empty());
    }

    #[test]
    fn names_that_would_end_elsewhere_are_refused() {
        for name in [".a=", "=", r#"."a"#, r#"."a\""#, r#".a""#, ".a\n"] {
            for views in [Views::new().inside(name, "A"), Views::new().call(name, "A")] {
                let error = views.lines().unwrap_err();
                assert_eq!((error.kind(), error.at()), (ErrorKind::Path, Some(name)));
            }
        }
        for views in [Views::new().call(".a", "A\nB"), Views::new().inside(".a", Format::json("\"U8\"\n"))] {
            assert_eq!(views.lines().unwrap_err().at(), Some(".a"));
        }
        assert_eq!(Views::new().address("A\n").lines().unwrap_err().at(), Some("A\n"));
    }
}
