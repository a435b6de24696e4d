//! Times the calls of bindings/rust for bench/values.py: values EXAMPLES. For bench/peers.py: values --lines COMMAND
mod digits;
mod lines;
mod plain;
mod transaction;

use bcs_proved::{Bytes, Registry};
use digits::{bytes_of, digits};
use std::fs;
use std::hint::black_box;
use transaction::RawTransaction;

const RUNS: usize = 7;
/// A run takes about this many microseconds.
const RUN: f64 = 100_000.0;

unsafe extern "C" {
    /// The processor time of this process, in microseconds.
    safe fn clock() -> std::ffi::c_long;
}

/// Microseconds of processor time for `count` calls.
fn time<T>(count: u32, call: &impl Fn() -> T) -> f64 {
    let start = clock();
    for _ in 0..count {
        black_box(call());
    }
    (clock() - start) as f64
}

/// Prints the microseconds of processor time for a call, the least of all runs.
fn report<T>(name: &str, call: impl Fn() -> T) {
    let mut count = 1;
    while time(count, &call) < RUN / 10.0 {
        count *= 2;
    }
    count = (f64::from(count) * RUN / time(count, &call)).ceil() as u32;
    let least = (0..RUNS).map(|_| time(count, &call)).fold(f64::INFINITY, f64::min);
    println!("{name} {}", least / f64::from(count));
}

fn transfer(registry: &Registry, json: &str, data: &[u8]) {
    let format = "RawTransaction";
    let value: RawTransaction = registry.decode(format, data).unwrap();
    let (wrong, short) = (json.replace("\"chain_id\": 4", "\"chain_id\": -4"), &data[..data.len() - 1]);
    assert_eq!(registry.encode(format, &value).unwrap(), data);
    assert_eq!(plain::encoded(&value), data);
    assert_eq!(plain::decoded(data), Some(value.clone()));
    report("transfer encode values", || registry.encode(format, &value).unwrap());
    report("transfer encode text", || registry.encode_json(format, json).unwrap());
    report("transfer encode text-refused", || registry.encode_json(format, &wrong).unwrap_err());
    report("transfer encode plain", || plain::encoded(&value));
    report("transfer decode values", || registry.decode::<RawTransaction>(format, data).unwrap());
    report("transfer decode values-refused", || registry.decode::<RawTransaction>(format, short).unwrap_err());
    report("transfer decode text", || registry.decode_json(format, data).unwrap());
    report("transfer decode text-refused", || registry.decode_json(format, short).unwrap_err());
    report("transfer decode plain", || plain::decoded(data).unwrap());
}

fn megabyte(registry: &Registry, bytes: Vec<u8>) {
    let format = r#""BYTES""#;
    let value = Bytes(bytes);
    let data = registry.encode(format, &value).unwrap();
    let json = format!("\"{}\"", digits(&value.0));
    assert_eq!(registry.decode_json(format, &data).unwrap(), json);
    report("bytes encode values", || registry.encode(format, &value).unwrap());
    report("bytes encode text", || registry.encode_json(format, &json).unwrap());
    report("bytes encode plain", || plain::encoded_bytes(&value.0));
    report("bytes decode values", || registry.decode::<Bytes>(format, &data).unwrap());
    report("bytes decode text", || registry.decode_json(format, &data).unwrap());
    report("bytes decode plain", || plain::decoded_bytes(&data).unwrap());
}

fn main() {
    let words: Vec<String> = std::env::args().skip(1).collect();
    if let [option, command] = &words[..] {
        assert_eq!(option, "--lines");
        return lines::answer(command);
    }
    let examples = words.first().expect("the folder examples");
    let read = |name: &str| fs::read_to_string(format!("{examples}/{name}")).unwrap();
    let registry = Registry::read(read("aptos_registry.json")).unwrap();
    transfer(&registry, &read("aptos_transfer.json"), &bytes_of(read("aptos_transfer.hex").trim()).unwrap());
    megabyte(&registry, (0..1_000_000_u32).map(|number| (number.wrapping_mul(2_654_435_761) >> 24) as u8).collect());
}
