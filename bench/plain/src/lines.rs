//! Each line of the input as an input of its own, the ordinary way: a buffered reader, and the standard output, which is
//! flushed at each line feed.

use crate::registry::{read_format, Format, Registry};
use crate::{bytes, digits, encoded_by, hexadecimal, line, named, text, Outcome};
use std::fs::File;
use std::io::{self, BufRead, BufReader, Write};

/// Answers each line, and gives the status of the whole: 2 where a line was refused.
pub fn answer_lines(words: &[&str]) -> Outcome<i32> {
    let [command, registry, format, file @ ..] = words else {
        return Err("Usage");
    };
    let registry = Registry::read(&named(registry)?)?;
    let format = read_format(format)?;
    let mut input: Box<dyn BufRead> = match file {
        [name] => Box::new(BufReader::new(File::open(name).map_err(|_| "Open")?)),
        _ => Box::new(io::stdin().lock()),
    };
    let mut output = io::stdout().lock();
    let mut status = 0;
    let mut given = Vec::new();
    while input.read_until(b'\n', &mut given).map_err(|_| "Read")? > 0 {
        let answer = answer_line(command, &registry, &format, &given).unwrap_or_else(|fault| {
            status = 2;
            format!("refused: {fault}\n").into_bytes()
        });
        output.write_all(&answer).map_err(|_| "Write")?;
        given.clear();
    }
    Ok(status)
}

fn answer_line(command: &str, registry: &Registry, format: &Format, given: &[u8]) -> Outcome<Vec<u8>> {
    match command {
        "encode" => Ok(hexadecimal(&encoded_by(registry, format, given)?)),
        "decode" => {
            let value = bytes::decode(registry, format, &digits(given)?)?;
            Ok(line(text::show(registry, format, &value)))
        }
        "normalise" => {
            let value = bytes::decode(registry, format, &encoded_by(registry, format, given)?)?;
            Ok(line(text::show(registry, format, &value)))
        }
        _ => Err("Usage"),
    }
}
