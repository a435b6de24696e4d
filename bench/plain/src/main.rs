//! The yardstick of the timings: an ordinary Rust program over the real `serde_json`, with a tree of values, for the same
//! commands as `bcs`. It makes few of its tests: no limits of depth and nodes, and one error for each fault. Beside them it
//! has `parse` and `pass`, the least that reading a text or bytes can take. `--lines` takes each line of the input of
//! `encode`, `decode` and `normalise` as an input of its own.

mod bytes;
mod lines;
mod registry;
mod text;
mod value;

use registry::{read_format, Format, Registry};
use serde::de::IgnoredAny;
use std::env;
use std::fs;
use std::io::{self, Read, Write};
use std::process;

type Outcome<T> = Result<T, &'static str>;

fn main() {
    let words: Vec<String> = env::args().skip(1).collect();
    let raw = words.iter().any(|word| word == "--raw");
    let by_line = words.iter().any(|word| word == "--lines");
    let words: Vec<&str> =
        words.iter().map(String::as_str).filter(|word| !["--raw", "--lines"].contains(word)).collect();
    if by_line {
        process::exit(lines::answer_lines(&words).unwrap_or(4));
    }
    match answer(&words, raw) {
        Ok(answer) => io::stdout().write_all(&answer).expect("the output takes the answer"),
        Err(fault) => {
            println!("refused: {fault}");
            process::exit(2);
        }
    }
}

fn answer(words: &[&str], raw: bool) -> Outcome<Vec<u8>> {
    match words {
        ["check", registry] => {
            let registry = Registry::read(&named(registry)?)?;
            Ok(format!("ok {}\n", registry.len()).into_bytes())
        }
        ["encode", registry, format, file @ ..] => {
            let registry = Registry::read(&named(registry)?)?;
            let bytes = encoded(&registry, format, &input(file)?)?;
            Ok(if raw { bytes } else { hexadecimal(&bytes) })
        }
        ["decode", registry, format, file @ ..] => {
            let registry = Registry::read(&named(registry)?)?;
            let format = read_format(format)?;
            let input = input(file)?;
            let bytes = if raw { input } else { digits(&input)? };
            let value = bytes::decode(&registry, &format, &bytes)?;
            Ok(line(text::show(&registry, &format, &value)))
        }
        ["normalise", registry, format, file @ ..] => {
            let registry = Registry::read(&named(registry)?)?;
            let bytes = encoded(&registry, format, &input(file)?)?;
            let format = read_format(format)?;
            let value = bytes::decode(&registry, &format, &bytes)?;
            Ok(line(text::show(&registry, &format, &value)))
        }
        ["same", registry, format, first, second @ ..] => {
            let registry = Registry::read(&named(registry)?)?;
            let first = encoded(&registry, format, &named(first)?)?;
            let second = encoded(&registry, format, &input(second)?)?;
            Ok(if first == second { b"equal\n".to_vec() } else { b"different\n".to_vec() })
        }
        ["parse", file @ ..] => parse(&input(file)?),
        ["pass", file @ ..] => {
            let letters = input(file)?.iter().filter(|byte| byte.is_ascii_alphabetic()).count();
            Ok(format!("{letters}\n").into_bytes())
        }
        _ => Err("Usage"),
    }
}

/// The least that a job on a text can take: `serde_json` reads it, and keeps nothing.
fn parse(text: &[u8]) -> Outcome<Vec<u8>> {
    serde_json::from_slice::<IgnoredAny>(text).map_err(|_| "NotJson")?;
    Ok(b"read\n".to_vec())
}

fn encoded(registry: &Registry, format: &str, input: &[u8]) -> Outcome<Vec<u8>> {
    encoded_by(registry, &read_format(format)?, input)
}

fn encoded_by(registry: &Registry, format: &Format, input: &[u8]) -> Outcome<Vec<u8>> {
    let json = serde_json::from_slice(input).map_err(|_| "NotJson")?;
    let value = text::read(registry, format, json)?;
    bytes::encode(&value)
}

fn named(word: &str) -> Outcome<Vec<u8>> {
    if word.starts_with('{') {
        Ok(word.as_bytes().to_vec())
    } else {
        fs::read(word).map_err(|_| "Open")
    }
}

fn input(file: &[&str]) -> Outcome<Vec<u8>> {
    match file {
        [name] => fs::read(name).map_err(|_| "Open"),
        _ => {
            let mut bytes = Vec::new();
            io::stdin().read_to_end(&mut bytes).map_err(|_| "Read")?;
            Ok(bytes)
        }
    }
}

fn line(text: String) -> Vec<u8> {
    let mut text = text.into_bytes();
    text.push(b'\n');
    text
}

fn hexadecimal(bytes: &[u8]) -> Vec<u8> {
    let mut text = Vec::with_capacity(2 * bytes.len() + 1);
    text::push_digits(&mut text, bytes);
    text.push(b'\n');
    text
}

/// The bytes of hexadecimal digits between blanks.
pub fn digits(text: &[u8]) -> Outcome<Vec<u8>> {
    let text = text.trim_ascii();
    if text.len() % 2 == 1 {
        return Err("BadHex");
    }
    let digit = |c: u8| (c as char).to_digit(16).ok_or("BadHex");
    text.chunks(2).map(|pair| Ok((digit(pair[0])? * 16 + digit(pair[1])?) as u8)).collect()
}
