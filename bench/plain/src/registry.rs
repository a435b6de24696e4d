//! Registries in serde-reflection's JSON.

use crate::Outcome;
use serde_json::Value as Json;
use std::collections::{BTreeMap, HashMap};

pub enum Format {
    Unit,
    Bool,
    Unsigned(u8),
    Signed(u8),
    Str,
    Bytes,
    Name(String),
    Opt(Box<Format>),
    Seq(Box<Format>),
    Map(Box<Format>, Box<Format>),
    Tuple(Vec<Format>),
    Array(Box<Format>, u64),
}

pub enum Container {
    Content(Format),
    Struct(Vec<(String, Format)>),
    Enum(BTreeMap<u32, (String, Container)>),
}

pub struct Registry(HashMap<String, Container>);

impl Registry {
    pub fn read(text: &[u8]) -> Outcome<Registry> {
        let json: Json = serde_json::from_slice(text).map_err(|_| "NotJson")?;
        let members = json.as_object().ok_or("BadShape")?;
        members
            .iter()
            .map(|(name, json)| Ok((name.clone(), container(json)?)))
            .collect::<Outcome<_>>()
            .map(Registry)
    }

    pub fn len(&self) -> usize {
        self.0.len()
    }

    pub fn container(&self, name: &str) -> Outcome<&Container> {
        self.0.get(name).ok_or("UnknownName")
    }
}

pub fn read_format(word: &str) -> Outcome<Format> {
    if word.starts_with('{') || word.starts_with('"') {
        format(&serde_json::from_str(word).map_err(|_| "NotJson")?)
    } else {
        Ok(Format::Name(word.to_string()))
    }
}

fn container(json: &Json) -> Outcome<Container> {
    match json {
        Json::String(word) if word == "UNITSTRUCT" => Ok(Container::Content(Format::Unit)),
        _ => match only_member(json)? {
            ("NEWTYPESTRUCT", json) => Ok(Container::Content(format(json)?)),
            ("TUPLESTRUCT", json) => Ok(Container::Content(Format::Tuple(formats(json)?))),
            ("STRUCT", json) => Ok(Container::Struct(fields(json)?)),
            ("ENUM", json) => json
                .as_object()
                .ok_or("BadShape")?
                .iter()
                .map(|(number, json)| {
                    let (name, json) = only_member(json)?;
                    let number = number.parse().map_err(|_| "BadNumber")?;
                    Ok((number, (name.to_string(), payload(json)?)))
                })
                .collect::<Outcome<_>>()
                .map(Container::Enum),
            _ => Err("BadShape"),
        },
    }
}

fn payload(json: &Json) -> Outcome<Container> {
    match json {
        Json::String(word) if word == "UNIT" => Ok(Container::Content(Format::Unit)),
        _ => match only_member(json)? {
            ("NEWTYPE", json) => Ok(Container::Content(format(json)?)),
            ("TUPLE", json) => Ok(Container::Content(Format::Tuple(formats(json)?))),
            ("STRUCT", json) => Ok(Container::Struct(fields(json)?)),
            _ => Err("BadShape"),
        },
    }
}

fn fields(json: &Json) -> Outcome<Vec<(String, Format)>> {
    let field = |json| only_member(json).and_then(|(name, json)| Ok((name.to_string(), format(json)?)));
    json.as_array().ok_or("BadShape")?.iter().map(field).collect()
}

fn formats(json: &Json) -> Outcome<Vec<Format>> {
    json.as_array().ok_or("BadShape")?.iter().map(format).collect()
}

fn format(json: &Json) -> Outcome<Format> {
    match json {
        Json::String(word) => match word.as_str() {
            "UNIT" => Ok(Format::Unit),
            "BOOL" => Ok(Format::Bool),
            "U8" => Ok(Format::Unsigned(1)),
            "U16" => Ok(Format::Unsigned(2)),
            "U32" => Ok(Format::Unsigned(4)),
            "U64" => Ok(Format::Unsigned(8)),
            "U128" => Ok(Format::Unsigned(16)),
            "I8" => Ok(Format::Signed(1)),
            "I16" => Ok(Format::Signed(2)),
            "I32" => Ok(Format::Signed(4)),
            "I64" => Ok(Format::Signed(8)),
            "I128" => Ok(Format::Signed(16)),
            "STR" => Ok(Format::Str),
            "BYTES" => Ok(Format::Bytes),
            _ => Err("Unsupported"),
        },
        _ => match only_member(json)? {
            ("TYPENAME", json) => Ok(Format::Name(json.as_str().ok_or("BadShape")?.to_string())),
            ("OPTION", json) => Ok(Format::Opt(Box::new(format(json)?))),
            ("SEQ", json) => Ok(Format::Seq(Box::new(format(json)?))),
            ("MAP", json) => Ok(Format::Map(Box::new(format(&json["KEY"])?), Box::new(format(&json["VALUE"])?))),
            ("TUPLE", json) => Ok(Format::Tuple(formats(json)?)),
            ("TUPLEARRAY", json) => {
                let size = json["SIZE"].as_u64().ok_or("BadNumber")?;
                Ok(Format::Array(Box::new(format(&json["CONTENT"])?), size))
            }
            _ => Err("BadShape"),
        },
    }
}

fn only_member(json: &Json) -> Outcome<(&str, &Json)> {
    let mut members = json.as_object().ok_or("BadShape")?.iter();
    match (members.next(), members.next()) {
        (Some((name, json)), None) => Ok((name, json)),
        _ => Err("BadShape"),
    }
}
