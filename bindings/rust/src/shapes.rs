//! The formats of a registry, for walking them together with a value of a `serde` type.
use crate::integers::{Integer, U8};
use crate::json::push_string;
use crate::mismatch::Mismatch;
use crate::probe::Probe;
use serde_json::Value;
use std::cell::Cell;
use std::collections::HashMap;

/// A format, or what a container or a variant holds. A newtype is its content: it has no bytes of its own.
pub(crate) enum Shape {
    Unit,
    Bool,
    Integer(Integer),
    Str,
    Bytes,
    /// A byte of `BYTES`.
    Octet,
    Option(Box<Shape>),
    Seq(Box<Shape>),
    Array(Box<Shape>),
    /// The `Entry` of each key.
    Map(Box<Shape>),
    /// A key and its value.
    Entry(Box<[Shape; 2]>),
    Tuple(Vec<Shape>),
    Struct(Members),
    Enum(Members),
    /// A container, by its place among the containers.
    Name(usize),
    /// A field's name.
    FieldName,
    /// The library rejects every value here, and says why.
    Void,
}

/// A struct's fields, or an enum's variants.
pub(crate) struct Members {
    /// In the order of their names, which is also their order in normal JSON.
    sorted: Vec<Member>,
    /// The place of each in `sorted`, in the order of the registry.
    places: Vec<usize>,
}

pub(crate) struct Member {
    pub(crate) name: String,
    /// How its JSON begins: the name and a colon.
    pub(crate) head: String,
    pub(crate) shape: Shape,
}

impl Members {
    fn of(parts: Vec<(&String, Shape)>) -> Members {
        let member = |(name, shape): (&String, Shape)| {
            let mut head = String::new();
            push_string(&mut head, name);
            head.push(':');
            Member { name: name.clone(), head, shape }
        };
        let mut numbered: Vec<(usize, Member)> = parts.into_iter().map(member).enumerate().collect();
        numbered.sort_by(|(_, one), (_, other)| one.name.cmp(&other.name));
        let mut places = vec![0; numbered.len()];
        for (place, (number, _)) in numbered.iter().enumerate() {
            places[*number] = place;
        }
        Members { sorted: numbered.into_iter().map(|(_, member)| member).collect(), places }
    }

    pub(crate) fn len(&self) -> usize {
        self.sorted.len()
    }

    /// The member of this name. It is found fastest if it is the next one in the order of the registry.
    #[inline]
    pub(crate) fn find(&self, name: &str, next: usize) -> Option<&Member> {
        self.find_sorted(name, self.places.get(next).copied().unwrap_or_default())
    }

    /// The same for the next one in the order of names.
    #[inline]
    pub(crate) fn find_sorted(&self, name: &str, next: usize) -> Option<&Member> {
        self.sorted.get(next).filter(|member| member.name == name).or_else(|| {
            let place = self.sorted.binary_search_by(|member| member.name.as_str().cmp(name)).ok()?;
            Some(&self.sorted[place])
        })
    }
}

/// The containers of a registry.
pub(crate) struct Shapes {
    places: HashMap<String, usize>,
    containers: Vec<Shape>,
}

/// What a rejection calls a list at `BYTES`.
pub(crate) const PLAIN_LIST: &str = "a plain list, which may be a set: see bcs_proved::bytes";

pub(crate) static OCTET: Shape = Shape::Octet;
pub(crate) static FIELD_NAME: Shape = Shape::FieldName;
pub(crate) static VOID: Shape = Shape::Void;

impl Shapes {
    /// The containers of a registry that the library has read.
    pub(crate) fn read(text: &str) -> Shapes {
        let registry: Value = serde_json::from_str(text).expect("a registry is JSON");
        let containers = registry.as_object().expect("a registry is its containers");
        let places = containers.keys().cloned().zip(0..).collect();
        let mut shapes = Shapes { places, containers: Vec::new() };
        shapes.containers = containers
            .values()
            .map(|container| shapes.of(container))
            .collect::<Option<_>>()
            .expect("a registry is its containers");
        shapes
    }

    /// The format that a JSON text writes down. If it doesn't, the library rejects it.
    pub(crate) fn format(&self, text: &[u8]) -> Shape {
        let parsed = || self.of(&serde_json::from_slice(text).ok()?);
        self.named(text).or_else(parsed).unwrap_or(Shape::Void)
    }

    /// The container of a format as `Format::named` writes it, which needs no parser.
    fn named(&self, text: &[u8]) -> Option<Shape> {
        let name = text.strip_prefix(br#"{"TYPENAME":""#)?.strip_suffix(br#""}"#)?;
        let name = std::str::from_utf8(name).ok().filter(|name| !name.contains(['"', '\\']))?;
        self.places.get(name).copied().map(Shape::Name)
    }

    /// The shapes of an object's members.
    fn members<'v>(&self, object: &'v Value) -> Option<Vec<(&'v String, Shape)>> {
        object.as_object()?.iter().map(|(name, value)| Some((name, self.of(value)?))).collect()
    }

    /// The shapes of objects that have one member each.
    fn named_parts<'v>(&self, objects: impl Iterator<Item = &'v Value>) -> Option<Members> {
        let mut all = Vec::new();
        for object in objects {
            all.extend(self.members(object)?);
        }
        Some(Members::of(all))
    }

    fn of(&self, format: &Value) -> Option<Shape> {
        if let Some(word) = format.as_str() {
            return Some(Shape::of_word(word));
        }
        let (kind, part) = format.as_object()?.iter().next()?;
        let all = |part: &Value| part.as_array()?.iter().map(|part| self.of(part)).collect::<Option<Vec<Shape>>>();
        let boxed = |part| self.of(part).map(Box::new);
        Some(match kind.as_str() {
            "TYPENAME" => self.places.get(part.as_str()?).map_or(Shape::Void, |place| Shape::Name(*place)),
            "OPTION" => Shape::Option(boxed(part)?),
            "SEQ" => Shape::Seq(boxed(part)?),
            "TUPLEARRAY" => Shape::Array(boxed(part.get("CONTENT")?)?),
            "MAP" => {
                let entry = [self.of(part.get("KEY")?)?, self.of(part.get("VALUE")?)?];
                Shape::Map(Box::new(Shape::Entry(Box::new(entry))))
            }
            "TUPLE" | "TUPLESTRUCT" => Shape::Tuple(all(part)?),
            "NEWTYPE" | "NEWTYPESTRUCT" => self.of(part)?,
            "STRUCT" => Shape::Struct(self.named_parts(part.as_array()?.iter())?),
            "ENUM" => Shape::Enum(self.named_parts(part.as_object()?.values())?),
            _ => return None,
        })
    }
}

impl Shape {
    fn of_word(word: &str) -> Shape {
        match word {
            "UNIT" | "UNITSTRUCT" => Shape::Unit,
            "BOOL" => Shape::Bool,
            "STR" => Shape::Str,
            "BYTES" => Shape::Bytes,
            _ => Integer::of_format(word).map_or(Shape::Void, Shape::Integer),
        }
    }

    /// Whether it is a list of the word `U8` itself, which takes bytes, too. Their JSON is hexadecimal digits.
    pub(crate) fn is_octets(&self) -> bool {
        matches!(self, Shape::Seq(content) | Shape::Array(content) if matches!(**content, Shape::Integer(U8)))
    }

    pub(crate) fn name(&self) -> &'static str {
        match self {
            Shape::Unit => "UNIT",
            Shape::Bool => "BOOL",
            Shape::Integer(integer) => integer.format,
            Shape::Str => "STR",
            Shape::Bytes | Shape::Octet => "BYTES",
            Shape::Option(_) => "OPTION",
            Shape::Seq(_) => "SEQ",
            Shape::Array(_) => "TUPLEARRAY",
            Shape::Map(_) | Shape::Entry(_) => "MAP",
            Shape::Tuple(_) => "TUPLE",
            Shape::Struct(_) | Shape::FieldName => "STRUCT",
            Shape::Enum(_) => "ENUM",
            Shape::Name(_) => "TYPENAME",
            Shape::Void => "a format without values",
        }
    }

    /// What a value of a `serde` type has to be.
    pub(crate) fn takes(&self) -> &'static str {
        match self {
            Shape::Unit => "()",
            Shape::Bool => "a bool",
            Shape::Integer(_) => "an integer",
            Shape::Str => "a string",
            Shape::Bytes => "bytes, or Hex(…) for digits",
            Shape::Octet => "a u8 for each byte",
            Shape::Option(_) => "an Option",
            Shape::Seq(_) | Shape::Array(_) if self.is_octets() => "a list, bytes, or Hex(…) for digits",
            Shape::Seq(_) | Shape::Array(_) => "a list",
            Shape::Map(_) => "a map",
            Shape::Entry(_) => "a pair for each entry",
            Shape::Tuple(_) => "a tuple",
            Shape::Struct(_) => "a struct",
            Shape::FieldName => "a string for each field's name",
            Shape::Enum(_) => "a variant",
            Shape::Name(_) | Shape::Void => "nothing",
        }
    }
}

/// What a walk needs everywhere.
pub(crate) struct Walk<'w> {
    pub(crate) shapes: &'w Shapes,
    /// Whether the thread has stack left for a call of the library, which is more than some levels need.
    pub(crate) has_stack: &'w dyn Fn() -> bool,
    pub(crate) probe: Probe,
    /// How many more nodes the value may have.
    nodes: Cell<u64>,
    /// Whether the bytes of a list of `U8` are nodes. By default they aren't, since they cost little.
    counts_octets: bool,
    /// Whether a part couldn't be written.
    has_failed: Cell<bool>,
}

impl<'w> Walk<'w> {
    pub(crate) fn new(
        shapes: &'w Shapes,
        has_stack: &'w dyn Fn() -> bool,
        nodes: u64,
        counts_octets: bool,
    ) -> Walk<'w> {
        let (nodes, has_failed) = (Cell::new(nodes), Cell::new(false));
        Walk { shapes, has_stack, probe: Probe::new(), nodes, counts_octets, has_failed }
    }

    /// Counts nodes. The library counts each, but only once it has the JSON, and that of a value with shared parts may be
    /// much larger than the value.
    #[inline]
    pub(crate) fn count(&self, nodes: usize) -> Result<(), Mismatch> {
        let left = self.nodes.get().checked_sub(nodes as u64).ok_or_else(Mismatch::too_many_nodes)?;
        self.nodes.set(left);
        Ok(())
    }

    /// Counts bytes of a list of `U8`.
    #[inline]
    pub(crate) fn count_octets(&self, octets: usize) -> Result<(), Mismatch> {
        if self.counts_octets { self.count(octets) } else { Ok(()) }
    }

    pub(crate) fn fail(&self) {
        self.has_failed.set(true);
    }

    pub(crate) fn has_failed(&self) -> bool {
        self.has_failed.get()
    }
}

/// A format where a walk is.
#[derive(Clone, Copy)]
pub(crate) struct At<'w> {
    pub(crate) shape: &'w Shape,
    pub(crate) walk: &'w Walk<'w>,
    /// How many more containers may be opened.
    depth: u32,
    /// How many parts the walk went into.
    levels: u32,
}

impl<'w> At<'w> {
    pub(crate) fn new(shape: &'w Shape, walk: &'w Walk<'w>, depth: u32) -> At<'w> {
        // The library rejects a larger depth. The bound keeps newtypes that name themselves from being followed for long.
        At { shape, walk, depth: depth.min(500), levels: 0 }
    }

    /// At another format of the same level: a variant's payload, or a name.
    #[inline]
    pub(crate) fn to(self, shape: &'w Shape) -> At<'w> {
        At { shape, ..self }
    }

    /// At a byte that is written as digits.
    #[inline]
    pub(crate) fn octet(self, shape: &'w Shape) -> Result<At<'w>, Mismatch> {
        if !matches!(shape, Shape::Octet) {
            self.walk.count_octets(1)?;
        }
        Ok(self.to(shape))
    }

    /// At a part, which is counted. Each level calls the code of a type, so the stack is checked every few levels, except at the
    /// last one.
    #[inline]
    pub(crate) fn part(self, shape: &'w Shape) -> Result<At<'w>, Mismatch> {
        let levels = self.levels + 1;
        if levels % 8 == 0 && !matches!(shape, Shape::Integer(_) | Shape::Octet) && !(self.walk.has_stack)() {
            return Err(Mismatch::out_of_stack());
        }
        // A byte of BYTES is no node. Any other part is one, or has several.
        if !matches!(shape, Shape::Octet) {
            self.walk.count(1)?;
        }
        Ok(At { shape, levels, ..self })
    }

    /// At what the containers hold that open here.
    #[inline]
    pub(crate) fn entered(mut self) -> At<'w> {
        while let Shape::Name(place) = self.shape {
            self.shape = if self.depth > 0 { &self.walk.shapes.containers[*place] } else { &VOID };
            self.depth = self.depth.saturating_sub(1);
        }
        self
    }
}
