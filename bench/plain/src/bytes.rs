//! Bytes of values, and values of bytes.

use crate::registry::{Container, Format, Registry};
use crate::value::Value;
use crate::Outcome;

pub fn encode(value: &Value) -> Outcome<Vec<u8>> {
    let mut out = Vec::new();
    push(value, &mut out)?;
    Ok(out)
}

fn push(value: &Value, out: &mut Vec<u8>) -> Outcome<()> {
    match value {
        Value::Unit => {}
        Value::Bool(bit) => out.push(*bit as u8),
        Value::Unsigned(width, number) => out.extend_from_slice(&number.to_le_bytes()[..*width as usize]),
        Value::Signed(width, number) => out.extend_from_slice(&number.to_le_bytes()[..*width as usize]),
        Value::Text(text) => push_bytes(text.as_bytes(), out),
        Value::Bytes(bytes) => push_bytes(bytes, out),
        Value::Absent => out.push(0),
        Value::Present(value) => {
            out.push(1);
            push(value, out)?;
        }
        Value::List(values) => {
            push_uleb(values.len() as u32, out);
            push_all(values, out)?;
        }
        Value::Items(values) => push_all(values, out)?,
        Value::Pairs(pairs) => push_pairs(pairs, out)?,
        Value::Variant(number, value) => {
            push_uleb(*number, out);
            push(value, out)?;
        }
    }
    Ok(())
}

fn push_all(values: &[Value], out: &mut Vec<u8>) -> Outcome<()> {
    values.iter().try_for_each(|value| push(value, out))
}

fn push_pairs(pairs: &[(Value, Value)], out: &mut Vec<u8>) -> Outcome<()> {
    let mut entries = Vec::with_capacity(pairs.len());
    for (key, value) in pairs {
        entries.push((encode(key)?, encode(value)?));
    }
    entries.sort_by(|a, b| a.0.cmp(&b.0));
    if entries.windows(2).any(|pair| pair[0].0 == pair[1].0) {
        return Err("RepeatedKey");
    }
    push_uleb(entries.len() as u32, out);
    for (key, value) in entries {
        out.extend_from_slice(&key);
        out.extend_from_slice(&value);
    }
    Ok(())
}

fn push_bytes(bytes: &[u8], out: &mut Vec<u8>) {
    push_uleb(bytes.len() as u32, out);
    out.extend_from_slice(bytes);
}

fn push_uleb(mut number: u32, out: &mut Vec<u8>) {
    while number >= 128 {
        out.push(number as u8 | 128);
        number >>= 7;
    }
    out.push(number as u8);
}

struct Reader<'a> {
    registry: &'a Registry,
    bytes: &'a [u8],
    at: usize,
}

pub fn decode(registry: &Registry, format: &Format, bytes: &[u8]) -> Outcome<Value> {
    let mut reader = Reader { registry, bytes, at: 0 };
    let value = reader.value(format)?;
    if reader.at == bytes.len() {
        Ok(value)
    } else {
        Err("TrailingBytes")
    }
}

impl<'a> Reader<'a> {
    fn take(&mut self, count: usize) -> Outcome<&'a [u8]> {
        let bytes = self.bytes[self.at..].get(..count).ok_or("EndOfInput")?;
        self.at += count;
        Ok(bytes)
    }

    fn uleb(&mut self) -> Outcome<u32> {
        let mut number = 0u64;
        for shift in 0..5 {
            let byte = self.take(1)?[0];
            number |= ((byte & 127) as u64) << (7 * shift);
            if byte < 128 {
                if byte == 0 && shift > 0 {
                    return Err("LongForm");
                }
                return u32::try_from(number).map_err(|_| "NumberTooLarge");
            }
        }
        Err("NumberTooLarge")
    }

    fn unsigned(&mut self, width: u8) -> Outcome<u128> {
        let mut bytes = [0; 16];
        bytes[..width as usize].copy_from_slice(self.take(width as usize)?);
        Ok(u128::from_le_bytes(bytes))
    }

    fn value(&mut self, format: &Format) -> Outcome<Value> {
        match format {
            Format::Unit => Ok(Value::Unit),
            Format::Bool => match self.take(1)?[0] {
                0 => Ok(Value::Bool(false)),
                1 => Ok(Value::Bool(true)),
                _ => Err("BadBool"),
            },
            Format::Unsigned(width) => Ok(Value::Unsigned(*width, self.unsigned(*width)?)),
            Format::Signed(width) => {
                let unused = 128 - 8 * *width as u32;
                let number = (self.unsigned(*width)? << unused) as i128 >> unused;
                Ok(Value::Signed(*width, number))
            }
            Format::Str => {
                let count = self.uleb()? as usize;
                let text = std::str::from_utf8(self.take(count)?).map_err(|_| "BadUtf8")?;
                Ok(Value::Text(text.to_string()))
            }
            Format::Bytes => {
                let count = self.uleb()? as usize;
                Ok(Value::Bytes(self.take(count)?.to_vec()))
            }
            Format::Name(name) => self.container(self.registry.container(name)?),
            Format::Opt(format) => match self.take(1)?[0] {
                0 => Ok(Value::Absent),
                1 => Ok(Value::Present(Box::new(self.value(format)?))),
                _ => Err("BadOption"),
            },
            Format::Seq(format) => {
                let count = self.uleb()?;
                (0..count).map(|_| self.value(format)).collect::<Outcome<_>>().map(Value::List)
            }
            Format::Map(key, content) => self.map(key, content),
            Format::Tuple(formats) => {
                formats.iter().map(|format| self.value(format)).collect::<Outcome<_>>().map(Value::Items)
            }
            Format::Array(format, size) => {
                (0..*size).map(|_| self.value(format)).collect::<Outcome<_>>().map(Value::Items)
            }
        }
    }

    fn map(&mut self, key: &Format, content: &Format) -> Outcome<Value> {
        let count = self.uleb()?;
        let mut pairs = Vec::new();
        let mut last: Option<&[u8]> = None;
        for _ in 0..count {
            let start = self.at;
            let name = self.value(key)?;
            let bytes = &self.bytes[start..self.at];
            if last.is_some_and(|last| last >= bytes) {
                return Err("KeyOrder");
            }
            last = Some(bytes);
            pairs.push((name, self.value(content)?));
        }
        Ok(Value::Pairs(pairs))
    }

    fn container(&mut self, container: &Container) -> Outcome<Value> {
        match container {
            Container::Content(format) => self.value(format),
            Container::Struct(fields) => {
                fields.iter().map(|(_, format)| self.value(format)).collect::<Outcome<_>>().map(Value::Items)
            }
            Container::Enum(variants) => {
                let number = self.uleb()?;
                let (_, payload) = variants.get(&number).ok_or("UnknownVariant")?;
                Ok(Value::Variant(number, Box::new(self.container(payload)?)))
            }
        }
    }
}
