//! JSON of values, and values of JSON.

use crate::registry::{Container, Format, Registry};
use crate::value::Value;
use crate::{digits, Outcome};
use serde_json::{Map, Value as Json};

pub fn read(registry: &Registry, format: &Format, json: Json) -> Outcome<Value> {
    match (format, json) {
        (Format::Unit, Json::Null) => Ok(Value::Unit),
        (Format::Bool, Json::Bool(bit)) => Ok(Value::Bool(bit)),
        (Format::Unsigned(width), Json::Number(number)) => {
            unsigned(*width, number.as_u64().ok_or("BadNumber")? as u128)
        }
        (Format::Unsigned(width), Json::String(text)) => unsigned(*width, text.parse().map_err(|_| "BadNumber")?),
        (Format::Signed(width), Json::Number(number)) => signed(*width, number.as_i64().ok_or("BadNumber")? as i128),
        (Format::Signed(width), Json::String(text)) => signed(*width, text.parse().map_err(|_| "BadNumber")?),
        (Format::Str, Json::String(text)) => Ok(Value::Text(text)),
        (Format::Bytes, Json::String(text)) => Ok(Value::Bytes(digits(text.as_bytes())?)),
        (Format::Name(name), json) => contained(registry, registry.container(name)?, json),
        (Format::Opt(_), Json::Null) => Ok(Value::Absent),
        (Format::Opt(format), Json::Object(mut members)) => {
            let json = members.remove("some").ok_or("BadShape")?;
            Ok(Value::Present(Box::new(read(registry, format, json)?)))
        }
        (Format::Seq(format), Json::Array(items)) => all(registry, format, items).map(Value::List),
        (Format::Seq(_), Json::String(text)) => bytes(&text).map(Value::List),
        (Format::Map(key, content), Json::Array(items)) => pairs(registry, key, content, items),
        (Format::Tuple(formats), Json::Array(items)) if items.len() == formats.len() => formats
            .iter()
            .zip(items)
            .map(|(format, json)| read(registry, format, json))
            .collect::<Outcome<_>>()
            .map(Value::Items),
        (Format::Array(format, size), Json::Array(items)) if items.len() as u64 == *size => {
            all(registry, format, items).map(Value::Items)
        }
        (Format::Array(_, _), Json::String(text)) => bytes(&text).map(Value::Items),
        _ => Err("BadShape"),
    }
}

fn unsigned(width: u8, number: u128) -> Outcome<Value> {
    if width < 16 && number >> (8 * width as u32) != 0 {
        return Err("BadNumber");
    }
    Ok(Value::Unsigned(width, number))
}

fn signed(width: u8, number: i128) -> Outcome<Value> {
    let unused = 128 - 8 * width as u32;
    if number << unused >> unused != number {
        return Err("BadNumber");
    }
    Ok(Value::Signed(width, number))
}

fn bytes(text: &str) -> Outcome<Vec<Value>> {
    let bytes = digits(text.as_bytes())?;
    Ok(bytes.into_iter().map(|byte| Value::Unsigned(1, byte as u128)).collect())
}

fn all(registry: &Registry, format: &Format, items: Vec<Json>) -> Outcome<Vec<Value>> {
    items.into_iter().map(|json| read(registry, format, json)).collect()
}

fn pairs(registry: &Registry, key: &Format, content: &Format, items: Vec<Json>) -> Outcome<Value> {
    let pair = |json| {
        let Json::Array(items) = json else { return Err("BadShape") };
        let [name, value] = <[Json; 2]>::try_from(items).map_err(|_| "BadShape")?;
        Ok((read(registry, key, name)?, read(registry, content, value)?))
    };
    items.into_iter().map(pair).collect::<Outcome<_>>().map(Value::Pairs)
}

fn contained(registry: &Registry, container: &Container, json: Json) -> Outcome<Value> {
    match (container, json) {
        (Container::Content(format), json) => read(registry, format, json),
        (Container::Struct(fields), Json::Object(mut members)) => {
            let mut values = Vec::with_capacity(fields.len());
            for (name, format) in fields {
                let json = members.remove(name).ok_or("MissingField")?;
                values.push(read(registry, format, json)?);
            }
            if members.is_empty() {
                Ok(Value::Items(values))
            } else {
                Err("UnknownField")
            }
        }
        (Container::Enum(variants), Json::String(word)) => {
            let called = variants.iter().find(|(_, (name, _))| *name == word);
            let (number, _) = called.ok_or("UnknownVariant")?;
            Ok(Value::Variant(*number, Box::new(Value::Unit)))
        }
        (Container::Enum(variants), Json::Object(members)) => {
            let (word, json) = members.into_iter().next().ok_or("BadShape")?;
            let called = variants.iter().find(|(_, (name, _))| *name == word);
            let (number, (_, payload)) = called.ok_or("UnknownVariant")?;
            Ok(Value::Variant(*number, Box::new(contained(registry, payload, json)?)))
        }
        _ => Err("BadShape"),
    }
}

pub fn show(registry: &Registry, format: &Format, value: &Value) -> String {
    shown(registry, format, value).to_string()
}

fn shown(registry: &Registry, format: &Format, value: &Value) -> Json {
    match (format, value) {
        (Format::Name(name), value) => match registry.container(name) {
            Ok(container) => shown_content(registry, container, value),
            Err(_) => Json::Null,
        },
        (_, Value::Bool(bit)) => Json::Bool(*bit),
        (_, Value::Unsigned(width, number)) if *width <= 4 => Json::from(*number as u64),
        (_, Value::Unsigned(_, number)) => Json::String(number.to_string()),
        (_, Value::Signed(width, number)) if *width <= 4 => Json::from(*number as i64),
        (_, Value::Signed(_, number)) => Json::String(number.to_string()),
        (_, Value::Text(text)) => Json::String(text.clone()),
        (_, Value::Bytes(bytes)) => shown_bytes(bytes.iter().copied()),
        (Format::Opt(format), Value::Present(value)) => {
            let mut members = Map::new();
            members.insert("some".to_string(), shown(registry, format, value));
            Json::Object(members)
        }
        (Format::Seq(format), Value::List(values)) | (Format::Array(format, _), Value::Items(values)) => match **format {
            Format::Unsigned(1) => shown_bytes(values.iter().map(|value| match value {
                Value::Unsigned(_, number) => *number as u8,
                _ => 0,
            })),
            _ => Json::Array(values.iter().map(|value| shown(registry, format, value)).collect()),
        },
        (Format::Map(key, content), Value::Pairs(pairs)) => Json::Array(
            pairs
                .iter()
                .map(|(name, value)| Json::Array(vec![shown(registry, key, name), shown(registry, content, value)]))
                .collect(),
        ),
        (Format::Tuple(formats), Value::Items(values)) => {
            Json::Array(formats.iter().zip(values).map(|(format, value)| shown(registry, format, value)).collect())
        }
        _ => Json::Null,
    }
}

fn shown_content(registry: &Registry, container: &Container, value: &Value) -> Json {
    match (container, value) {
        (Container::Content(format), value) => shown(registry, format, value),
        (Container::Struct(fields), Value::Items(values)) => {
            let members = fields.iter().zip(values);
            Json::Object(members.map(|((name, format), value)| (name.clone(), shown(registry, format, value))).collect())
        }
        (Container::Enum(variants), Value::Variant(number, value)) => match (variants.get(number), &**value) {
            (Some((name, Container::Content(Format::Unit))), _) => Json::String(name.clone()),
            (Some((name, payload)), value) => {
                let mut members = Map::new();
                members.insert(name.clone(), shown_content(registry, payload, value));
                Json::Object(members)
            }
            (None, _) => Json::Null,
        },
        _ => Json::Null,
    }
}

fn shown_bytes(bytes: impl Iterator<Item = u8>) -> Json {
    let mut text = String::new();
    for byte in bytes {
        text.push(char::from_digit(byte as u32 >> 4, 16).unwrap_or('0'));
        text.push(char::from_digit(byte as u32 & 15, 16).unwrap_or('0'));
    }
    Json::String(text)
}

/// The bytes as lower-case hexadecimal digits.
pub fn push_digits(text: &mut Vec<u8>, bytes: &[u8]) {
    const DIGITS: &[u8; 16] = b"0123456789abcdef";
    for byte in bytes {
        text.push(DIGITS[(byte >> 4) as usize]);
        text.push(DIGITS[(byte & 15) as usize]);
    }
}
