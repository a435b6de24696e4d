//! A registry is closed when its last owner drops it. (Alone in a process, whose memory it measures.)
use bcs_proved::Registry;
use std::fs;

mod common;
use common::example;

/// The memory in use, in pages of 4 KiB.
fn pages() -> usize {
    fs::read_to_string("/proc/self/statm").unwrap().split(' ').nth(1).unwrap().parse().unwrap()
}

/// Each of these registries needs almost a megabyte.
#[test]
fn dropped_registries_are_freed() {
    let text = example("many_containers.json");
    let kept = Registry::read(&text).unwrap();
    let before = pages();
    for _ in 0..200 {
        let registry = Registry::read(&text).unwrap();
        assert!(registry.clone().check("Missing").is_err());
    }
    let grown = (pages().saturating_sub(before)) >> 8;
    assert!(grown < 40, "{grown} MiB more");
    drop(kept);
}
