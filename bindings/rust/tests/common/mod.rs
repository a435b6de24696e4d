//! What several tests use: the files of the repository's examples, and hexadecimal digits.
#![allow(dead_code, reason = "each test uses a part of it")]

use bcs_proved::Registry;
use std::fs;
use std::path::PathBuf;
use std::time::Duration;

/// A file of the repository's examples.
pub fn example(name: &str) -> String {
    let path = PathBuf::from(env!("CARGO_MANIFEST_DIR")).join("../../examples").join(name);
    fs::read_to_string(&path).unwrap_or_else(|error| panic!("{}: {error}", path.display()))
}

/// The bytes of an example's `.hex` file.
pub fn example_bytes(name: &str) -> Vec<u8> {
    bytes(example(&format!("{name}.hex")).trim_end())
}

/// A registry of the examples.
pub fn example_registry(name: &str) -> Registry {
    Registry::read(example(&format!("{name}.json"))).unwrap()
}

/// The bytes of hexadecimal digits.
pub fn bytes(digits: &str) -> Vec<u8> {
    assert_eq!(digits.len() % 2, 0);
    (0..digits.len()).step_by(2).map(|place| u8::from_str_radix(&digits[place..place + 2], 16).unwrap()).collect()
}

/// A registry without containers.
pub fn plain() -> Registry {
    Registry::read("{}").unwrap()
}

/// The processor time that this thread has taken, which other processes don't make longer.
pub fn processor_time() -> Duration {
    let stat = fs::read_to_string("/proc/thread-self/stat").unwrap();
    // Behind the name, which is in parentheses, the 12th and the 13th field count hundredths of a second.
    let fields: Vec<&str> = stat.rsplit_once(") ").unwrap().1.split(' ').collect();
    Duration::from_millis(fields[11..13].iter().map(|ticks| 10 * ticks.parse::<u64>().unwrap()).sum())
}
