use crate::answers::{fill, into_text};
use crate::error::{Error, ErrorKind};
use crate::faults::ModulesFault;
use crate::sys::{Call, Question};

/// A registry that was made from modules of a Move chain.
#[derive(Clone, Debug, PartialEq, Eq)]
pub struct MadeRegistry {
    /// The registry's JSON, which [`Registry::read`](crate::Registry::read) reads.
    pub json: String,
    /// What a reader of the registry has to know, for people: for instance that a type has another name there. Mostly empty.
    pub notes: String,
}

/// The registry for types of a Move chain, as `bcs from-move` prints it.
///
/// The modules are the JSON that a node of Aptos or Sui returns for a module, or an array of such answers. Each text of `types` is
/// a type, or a function, whose arguments have containers of their own: `0x1::coin::transfer<..>::arg0` and so on.
///
/// ```
/// use bcs_proved::{ErrorKind, ModulesFault, Registry, registry_of_modules};
///
/// let module = r#"{"address":"0x1","name":"m","structs":[{"name":"S","is_native":false,
///     "generic_type_params":[{}],"fields":[{"name":"a","type":"vector<T0>"}]}]}"#;
/// let made = registry_of_modules(module, ["0x1::m::S<u8>"])?;
/// assert_eq!(made.json, r#"{"0x1::m::S<u8>":{"STRUCT":[{"a":"BYTES"}]}}"#);
/// assert_eq!(Registry::read(made.json)?.encode_json("0x1::m::S<u8>", r#"{"a":"c0de"}"#)?, [2, 0xc0, 0xde]);
///
/// let error = registry_of_modules(module, ["0x1::n::S"]).unwrap_err();
/// assert_eq!(error, ErrorKind::Modules(ModulesFault::MissingModule));
/// assert_eq!(error.at(), Some("0x1::n::S"));
/// # Ok::<(), bcs_proved::Error>(())
/// ```
pub fn registry_of_modules(
    modules: impl AsRef<[u8]>,
    types: impl IntoIterator<Item = impl AsRef<str>>,
) -> Result<MadeRegistry, Error> {
    let (modules, types) = (modules.as_ref(), lines_of(types)?);
    let question = Question::new(Call::RegistryOfModules).first(modules).second(types.as_bytes());
    let text = into_text(fill(None, &question, 4096)?.0);
    // (the JSON has no line feed)
    let (json, notes) = text.split_once('\n').unwrap_or((&text, ""));
    Ok(MadeRegistry { json: json.to_owned(), notes: notes.to_owned() })
}

/// The types with a line feed between each two, as the library takes them. It would skip an empty one.
fn lines_of(types: impl IntoIterator<Item = impl AsRef<str>>) -> Result<String, Error> {
    let mut lines = String::new();
    for text in types {
        let text = text.as_ref();
        let message = match text {
            "" => "\"\" isn't a type",
            _ if text.contains('\n') => "a type has no line feed",
            _ => {
                lines.push_str(text);
                lines.push('\n');
                continue;
            }
        };
        let found = Some((text.to_owned(), message.to_owned()));
        return Err(Error::from(ErrorKind::Modules(ModulesFault::BadType)).found(found));
    }
    Ok(lines)
}
