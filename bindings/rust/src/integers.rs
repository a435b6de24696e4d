//! The integer types: those of formats, and Rust's. Both are the same ten.

/// An integer type.
#[derive(Clone, Copy, PartialEq, Eq, Debug)]
pub(crate) struct Integer {
    /// Its name as a format.
    pub(crate) format: &'static str,
    /// Its name in Rust.
    pub(crate) rust: &'static str,
    bits: u32,
    is_signed: bool,
}

macro_rules! integers {
    ($($name:ident: $rust:literal, $bits:literal, $is_signed:literal;)*) => {
        $(pub(crate) const $name: Integer =
            Integer { format: stringify!($name), rust: $rust, bits: $bits, is_signed: $is_signed };)*

        const ALL: [Integer; 10] = [$($name),*];
    };
}

integers! {
    I8: "i8", 8, true;
    I16: "i16", 16, true;
    I32: "i32", 32, true;
    I64: "i64", 64, true;
    I128: "i128", 128, true;
    U8: "u8", 8, false;
    U16: "u16", 16, false;
    U32: "u32", 32, false;
    U64: "u64", 64, false;
    U128: "u128", 128, false;
}

impl Integer {
    /// The integer type of a format's name.
    pub(crate) fn of_format(name: &str) -> Option<Integer> {
        ALL.into_iter().find(|integer| integer.format == name)
    }

    /// The integer type that Rust calls so.
    pub(crate) fn of_rust(name: &str) -> Option<Integer> {
        ALL.into_iter().find(|integer| integer.rust == name)
    }

    /// Whether it holds every value of the other type.
    #[inline]
    pub(crate) fn holds(self, other: Integer) -> bool {
        match (self.is_signed, other.is_signed) {
            (true, false) => self.bits > other.bits,
            (false, true) => false,
            _ => self.bits >= other.bits,
        }
    }

    /// Its name in Rust, with an article.
    pub(crate) fn found(self) -> String {
        format!("{} {}", if self.is_signed { "an" } else { "a" }, self.rust)
    }
}

#[cfg(test)]
mod tests {
    use super::ALL;

    /// The range of each type, by Rust's own constants. (2 to the 128 doesn't fit, so the largest numbers come in two halves.)
    #[test]
    fn a_type_holds_another_by_its_range() {
        let range = |name: &str| match name {
            "i8" => (i8::MIN.into(), i8::MAX as u128),
            "i16" => (i16::MIN.into(), i16::MAX as u128),
            "i32" => (i32::MIN.into(), i32::MAX as u128),
            "i64" => (i64::MIN.into(), i64::MAX as u128),
            "i128" => (i128::MIN, i128::MAX as u128),
            "u8" => (0, u8::MAX.into()),
            "u16" => (0, u16::MAX.into()),
            "u32" => (0, u32::MAX.into()),
            "u64" => (0, u64::MAX.into()),
            "u128" => (0, u128::MAX),
            _ => panic!("{name}"),
        };
        for one in ALL {
            for other in ALL {
                let ((least, greatest), (other_least, other_greatest)) = (range(one.rust), range(other.rust));
                let expected = least <= other_least && greatest >= other_greatest;
                assert_eq!(one.holds(other), expected, "{} holds {}", one.rust, other.rust);
            }
            assert_eq!(one.format, one.rust.to_uppercase());
        }
    }
}
