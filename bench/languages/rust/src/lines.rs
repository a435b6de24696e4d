//! Each line of the input as a transaction, by `serde_json`'s derived code and the plain codec.
use crate::digits::{bytes_of, digits};
use crate::plain::{decoded, encoded};
use std::io::{self, BufRead, BufWriter, Write};

fn bytes(json: &str) -> Vec<u8> {
    encoded(&serde_json::from_str(json).expect("a transaction"))
}

fn json(bytes: &[u8]) -> String {
    serde_json::to_string(&decoded(bytes).expect("a transaction")).expect("JSON")
}

pub fn answer(command: &str) {
    let answer_line = match command {
        "encode" => |line: &str| digits(&bytes(line)),
        "decode" => |line: &str| json(&bytes_of(line).expect("digits")),
        "normalise" => |line: &str| json(&bytes(line)),
        _ => panic!("no such command: {command}"),
    };
    let mut output = BufWriter::new(io::stdout().lock());
    for line in io::stdin().lock().lines() {
        writeln!(output, "{}", answer_line(&line.expect("a line"))).expect("the output takes the answer");
    }
}
