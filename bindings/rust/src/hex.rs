//! Bytes as hexadecimal digits.

/// The lower-case digits of all bytes, two for each.
#[cfg(any(feature = "serde_json", test))]
const DIGITS: [u8; 512] = {
    let digits = b"0123456789abcdef";
    let (mut all, mut byte) = ([0; 512], 0);
    while byte < 256 {
        all[2 * byte] = digits[byte >> 4];
        all[2 * byte + 1] = digits[byte & 15];
        byte += 1;
    }
    all
};

/// The value of each digit, or `NONE` for another sign.
const VALUES: [u8; 256] = {
    let mut values = [NONE; 256];
    let mut value = 0;
    while value < 16 {
        values[b"0123456789abcdef"[value] as usize] = value as u8;
        values[b"0123456789ABCDEF"[value] as usize] = value as u8;
        value += 1;
    }
    values
};

const NONE: u8 = 16;

/// Adds two lower-case digits for each byte.
#[cfg(any(feature = "serde_json", test))]
pub(crate) fn push_digits(out: &mut String, bytes: &[u8]) {
    let mut room = [[0; 2]; 256];
    out.reserve(2 * bytes.len());
    for bytes in bytes.chunks(room.len()) {
        let pairs = &mut room[..bytes.len()];
        for (pair, byte) in pairs.iter_mut().zip(bytes) {
            let place = 2 * usize::from(*byte);
            *pair = [DIGITS[place], DIGITS[place + 1]];
        }
        out.push_str(std::str::from_utf8(pairs.as_flattened()).expect("digits are ASCII"));
    }
}

/// Adds the two digits of a byte.
#[cfg(feature = "serde_json")]
#[inline]
pub(crate) fn push_byte(out: &mut String, byte: u8) {
    const TEXT: &str = match std::str::from_utf8(&DIGITS) {
        Ok(text) => text,
        Err(_) => panic!("digits are ASCII"),
    };
    let place = 2 * usize::from(byte);
    out.push_str(&TEXT[place..place + 2]);
}

/// The bytes of digits of either case, two for each byte. `None`: these aren't such digits.
pub(crate) fn bytes_of(digits: &str) -> Option<Vec<u8>> {
    let pairs = digits.as_bytes().chunks_exact(2);
    if !pairs.remainder().is_empty() {
        return None;
    }
    let mut all = 0;
    let byte_of = |pair: &[u8]| {
        let (high, low) = (VALUES[usize::from(pair[0])], VALUES[usize::from(pair[1])]);
        all |= high | low;
        high << 4 | low
    };
    let bytes = pairs.map(byte_of).collect();
    (all & NONE == 0).then_some(bytes)
}

#[cfg(test)]
mod tests {
    use super::{bytes_of, push_digits};

    #[test]
    fn digits_are_bytes() {
        let rows = [
            ("", Some(vec![])),
            ("00fF", Some(vec![0, 255])),
            ("aBcD", Some(vec![0xab, 0xcd])),
            ("0", None),
            ("000", None),
            ("0x", None),
            ("+1", None),
            ("é", None),
            ("g0", None),
        ];
        for (digits, bytes) in rows {
            assert_eq!(bytes_of(digits), bytes, "{digits}");
            if let Some(bytes) = bytes {
                let mut again = String::new();
                push_digits(&mut again, &bytes);
                assert_eq!(again, digits.to_lowercase());
            }
        }
    }
}
