//! What types of Rust are, by the words of `serde` for what a type wants, and which formats they fit.
use crate::integers::{Integer, U8};
use crate::mismatch::Mismatch;
use crate::shapes::Shape;

/// A format that went to a buffer.
#[derive(Clone, Copy, PartialEq)]
pub(crate) enum Kind {
    Unit,
    Bool,
    Integer(Integer),
    Str,
    /// The name of a field or a variant.
    Name,
    Bytes,
    Octet,
    Option,
    /// A list of the word `U8`, which bytes fit, too.
    Octets,
    List,
    Map,
    Struct,
    Enum,
}

impl Kind {
    pub(crate) fn of(shape: &Shape) -> Option<Kind> {
        Some(match shape {
            Shape::Unit => Kind::Unit,
            Shape::Bool => Kind::Bool,
            Shape::Integer(integer) => Kind::Integer(*integer),
            Shape::Str => Kind::Str,
            Shape::FieldName => Kind::Name,
            Shape::Bytes => Kind::Bytes,
            Shape::Octet => Kind::Octet,
            Shape::Option(_) => Kind::Option,
            Shape::Seq(_) | Shape::Array(_) if shape.is_octets() => Kind::Octets,
            Shape::Seq(_) | Shape::Array(_) | Shape::Tuple(_) | Shape::Entry(_) => Kind::List,
            Shape::Map(_) => Kind::Map,
            Shape::Struct(_) => Kind::Struct,
            Shape::Enum(_) => Kind::Enum,
            Shape::Name(_) | Shape::Void => return None,
        })
    }

    pub(crate) fn is_number(self) -> bool {
        matches!(self, Kind::Integer(_) | Kind::Octet)
    }

    pub(crate) fn is_list(self) -> bool {
        matches!(self, Kind::Bytes | Kind::Octets | Kind::List)
    }
}

/// Why a type doesn't fit a format.
#[derive(Clone, Copy)]
pub(crate) enum Fault {
    Type(&'static str),
    /// An integer type for a byte of `BYTES`.
    Octet(Integer),
    Narrow(Integer),
    /// An integer type for the large numbers of a format, and for larger ones that `encode` rejects.
    Wide(Integer),
    /// No type has the part.
    Lost,
}

impl Fault {
    pub(crate) fn mismatch(self, shape: &Shape) -> Mismatch {
        match (self, shape) {
            (Fault::Type(found), _) => Mismatch::unfit(shape, found),
            (Fault::Narrow(integer), Shape::Integer(format)) => Mismatch::narrow(integer.rust, format.format),
            (Fault::Wide(integer), Shape::Integer(format)) => Mismatch::narrow(format.format, integer.rust),
            (Fault::Lost, _) => Mismatch::unfit(shape, "a type that leaves it out"),
            (Fault::Octet(integer) | Fault::Narrow(integer) | Fault::Wide(integer), _) => {
                Mismatch::unfit(shape, &integer.found())
            }
        }
    }
}

/// What a type is.
#[derive(Clone, Copy)]
enum Type {
    Integer(Integer),
    F32,
    F64,
    Bool,
    Unit,
    UnitStruct,
    UnitVariant,
    Char,
    Text,
    /// A type whose text isn't what it has in BCS.
    Address,
    Bytes,
    List,
    Tuple,
    Map,
    Struct,
    Enum,
    FieldName,
    VariantName,
    /// A type with words of its own.
    Other,
}

impl Type {
    /// `string or map` are words of `serde` that a type can't replace. The others are those of the types of `std`, and of derived
    /// ones.
    fn of(wanted: &str) -> Type {
        let begins = |parts: &[&str]| parts.iter().any(|part| wanted.starts_with(part));
        match wanted {
            "f32" => Type::F32,
            "f64" => Type::F64,
            "a boolean" => Type::Bool,
            "unit" => Type::Unit,
            "a character" => Type::Char,
            "a string" | "a borrowed string" => Type::Text,
            "IP address" | "IPv4 address" | "IPv6 address" => Type::Address,
            "socket address" | "IPv4 socket address" | "IPv6 socket address" => Type::Address,
            "bytes" | "byte array" | "a byte array" | "a borrowed byte array" => Type::Bytes,
            "a sequence" => Type::List,
            "a map" => Type::Map,
            "string or map" => Type::Enum,
            "field identifier" => Type::FieldName,
            "variant identifier" => Type::VariantName,
            _ if begins(&["unit struct "]) => Type::UnitStruct,
            _ if begins(&["unit variant "]) => Type::UnitVariant,
            _ if begins(&["tuple ", "a tuple ", "an array ", "an empty array"]) => Type::Tuple,
            _ if begins(&["struct ", "internally tagged enum ", "adjacently tagged enum "]) => Type::Struct,
            _ => integer_of(wanted).map_or(Type::Other, Type::Integer),
        }
    }

    fn found(self) -> &'static str {
        match self {
            Type::Integer(_) => "an integer",
            Type::F32 => "an f32",
            Type::F64 => "an f64",
            Type::Bool => "a bool",
            Type::Unit => "()",
            Type::UnitStruct => "a unit struct",
            Type::UnitVariant => "a unit variant",
            Type::Char => "a char",
            Type::Text => "a string",
            Type::Address => "an address of std::net, which is binary",
            Type::Bytes => "bytes",
            Type::List => "a list",
            Type::Tuple => "a tuple",
            Type::Map => "a map",
            Type::Struct | Type::FieldName => "a struct",
            Type::Enum | Type::VariantName => "an enum",
            Type::Other => "another type",
        }
    }
}

fn integer_of(wanted: &str) -> Option<Integer> {
    Integer::of_rust(wanted.strip_prefix("a nonzero ").unwrap_or(wanted))
}

/// What a type does with a value of a format that a buffer has.
enum Fit {
    Rejects,
    Takes,
    /// It would take the value for something else.
    Mistakes,
}

fn fit(kind: Kind, of: Type, is_empty: bool) -> Fit {
    use Type::*;
    match (kind, of) {
        (Kind::Octet, Integer(integer)) if integer != U8 => Fit::Mistakes,
        (Kind::Integer(_) | Kind::Octet, F32 | F64 | FieldName | VariantName) => Fit::Mistakes,
        (Kind::Integer(_) | Kind::Octet, Integer(_)) => Fit::Takes,
        (Kind::Unit, Unit | UnitStruct | UnitVariant) | (Kind::Bool, Bool) => Fit::Takes,
        // `serde` takes it for the tag of a type that it has in a struct.
        (Kind::Str, Text | VariantName) | (Kind::Name, Text | VariantName | FieldName) => Fit::Takes,
        (Kind::Str | Kind::Name, Char | Bytes | Enum | FieldName | Address) => Fit::Mistakes,
        (Kind::Enum, Enum) => Fit::Takes,
        (Kind::Enum, Text | Char | Bytes | Map | Struct | FieldName | VariantName | Address) => Fit::Mistakes,
        (Kind::Option, UnitVariant) => Fit::Mistakes,
        (Kind::Bytes, List) | (Kind::List, Bytes) => Fit::Mistakes,
        (Kind::Bytes | Kind::Octets, Bytes) | (Kind::Octets | Kind::List, List) => Fit::Takes,
        (Kind::Bytes | Kind::Octets | Kind::List, Tuple) => Fit::Takes,
        (Kind::Bytes | Kind::Octets | Kind::List | Kind::Map, Struct) => Fit::Mistakes,
        (Kind::Map | Kind::Struct, Enum) => Fit::Mistakes,
        (Kind::Map | Kind::Struct, Map) | (Kind::Struct, Struct) => Fit::Takes,
        (Kind::Map | Kind::Struct, Unit) if is_empty => Fit::Mistakes,
        (Kind::Bytes | Kind::Octets | Kind::List | Kind::Map | Kind::Struct, UnitStruct) if is_empty => Fit::Mistakes,
        (_, Other) => Fit::Takes,
        _ => Fit::Rejects,
    }
}

/// Why a type that is wanted doesn't fit the format.
pub(crate) fn fault<'t>(kind: Kind, is_empty: bool, mut wanted: impl Iterator<Item = &'t str>) -> Option<Fault> {
    let mistakes = |of: &Type| matches!(fit(kind, *of, is_empty), Fit::Mistakes);
    match (kind, wanted.find_map(|wanted| Some(Type::of(wanted)).filter(mistakes))?) {
        (Kind::Octet, Type::Integer(integer)) => Some(Fault::Octet(integer)),
        (_, of) => Some(Fault::Type(of.found())),
    }
}

/// The integer type that has numbers of the format and isn't for it. One type has to hold the format. An untagged enum may have
/// several, and each number goes to the first that holds it: then `encode` has to accept all of them.
pub(crate) fn width_fault<'t>(kind: Kind, wanted: impl Iterator<Item = &'t str>) -> Option<Fault> {
    let Kind::Integer(format) = kind else {
        return None;
    };
    let integers: Vec<Integer> = wanted.filter_map(integer_of).collect();
    let fault = |of: &Integer| if of.holds(format) { Fault::Wide(*of) } else { Fault::Narrow(*of) };
    match integers.iter().position(|integer| integer.holds(format)) {
        None => integers.first().map(fault),
        Some(0) => None,
        Some(last) => integers[..=last].iter().find(|integer| !format.holds(**integer)).map(fault),
    }
}

/// Why a type that is wanted is left out.
pub(crate) fn loss(kind: Kind, is_empty: bool, wanted: &str) -> Fault {
    let of = Type::of(wanted);
    match fit(kind, of, is_empty) {
        Fit::Takes => Fault::Lost,
        Fit::Rejects | Fit::Mistakes => Fault::Type(of.found()),
    }
}

/// Whether an `Option` is wanted, by what is wanted within `Some`. An option takes a unit for `None`, whatever it holds.
pub(crate) fn option_fault<'t>(kind: Kind, is_empty: bool, mut wanted: impl Iterator<Item = &'t str>) -> Option<Fault> {
    let rejects = |wanted| matches!(fit(kind, Type::of(wanted), is_empty), Fit::Rejects);
    wanted.any(|wanted| kind == Kind::Unit || !rejects(wanted)).then_some(Fault::Type("an Option"))
}

/// Whether a struct is wanted in the place of a list, by what is wanted for the key of a map.
pub(crate) fn struct_fault<'t>(mut wanted: impl Iterator<Item = &'t str>) -> Option<Fault> {
    wanted.any(|wanted| matches!(Type::of(wanted), Type::FieldName)).then_some(Fault::Type("a struct"))
}
