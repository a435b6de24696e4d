//! Where something is refused, and what is wrong there, as the library reports it.

/// The location and the message of a report, which has a NUL between them. A name in the location may contain others. A report is
/// empty if there is nothing to say besides the fault.
pub(crate) fn location_and_message(report: &[u8]) -> Option<(String, String)> {
    let text = std::str::from_utf8(report).expect("texts of the library are UTF-8");
    let (at, message) = text.rsplit_once('\0')?;
    Some((at.to_owned(), message.to_owned()))
}

#[cfg(test)]
mod tests {
    use super::location_and_message;

    #[test]
    fn reports_are_taken_apart() {
        let rows = [
            ("/a\0b/1\0an odd number of digits", Some(("/a\0b/1", "an odd number of digits"))),
            ("step 1 x: BadPath: y\0expected", Some(("step 1 x: BadPath: y", "expected"))),
            ("\0no container is called a", Some(("", "no container is called a"))),
            ("", None),
        ];
        for (report, expected) in rows {
            let expected = expected.map(|(at, message)| (at.to_owned(), message.to_owned()));
            assert_eq!(location_and_message(report.as_bytes()), expected, "{report}");
        }
    }
}
