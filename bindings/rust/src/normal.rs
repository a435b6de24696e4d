//! Normal JSON, as the library prints it: without blanks, and with an object's members in the order of their names. Values are
//! read where they are in the text, each at the offset where it begins.
use std::borrow::Cow;
use std::cell::Cell;

pub(crate) struct Normal<'t> {
    text: &'t str,
    /// Where the value that was read last begins and ends. So a list needn't look for the end of an element that its type has
    /// read.
    last: Cell<(usize, usize)>,
}

impl<'t> Normal<'t> {
    pub(crate) fn new(text: &'t str) -> Normal<'t> {
        Normal { text, last: Cell::new((usize::MAX, 0)) }
    }

    /// The byte at this offset, or 0 at the end.
    #[inline]
    pub(crate) fn sign(&self, place: usize) -> u8 {
        self.text.as_bytes().get(place).copied().unwrap_or_default()
    }

    #[inline]
    pub(crate) fn has(&self, place: usize, part: &str) -> bool {
        self.text.as_bytes().get(place..).is_some_and(|rest| rest.starts_with(part.as_bytes()))
    }

    /// Notes where a value ends that was read.
    #[inline]
    pub(crate) fn note(&self, start: usize, end: usize) {
        self.last.set((start, end));
    }

    /// Where the value ends that begins here.
    #[inline]
    pub(crate) fn end_of(&self, start: usize) -> usize {
        match self.last.get() {
            (last, end) if last == start => end,
            _ => self.skip(start),
        }
    }

    /// Where the next element or member begins, or the sign that ends the list.
    #[inline]
    pub(crate) fn next(&self, start: usize) -> usize {
        let end = self.end_of(start);
        end + usize::from(self.sign(end) == b',')
    }

    fn skip(&self, start: usize) -> usize {
        let (mut place, mut open) = (start, 0_usize);
        loop {
            place = match self.sign(place) {
                b'"' => self.end_of_string(place),
                b'[' | b'{' => {
                    open += 1;
                    place + 1
                }
                b']' | b'}' => {
                    open = open.saturating_sub(1);
                    place + 1
                }
                b',' | b':' => place + 1,
                _ => self.end_of_word(place),
            };
            if open == 0 || place >= self.text.len() {
                return place;
            }
        }
    }

    /// Where a number, `true`, `false` or `null` ends.
    fn end_of_word(&self, start: usize) -> usize {
        let rest = &self.text.as_bytes()[start..];
        start + rest.iter().position(|sign| matches!(sign, b',' | b']' | b'}')).unwrap_or(rest.len())
    }

    /// Behind the quotation mark that ends a string.
    fn end_of_string(&self, start: usize) -> usize {
        let mut place = start + 1;
        while let Some(length) = self.text[place..].find('"') {
            place += length + 1;
            let before = self.text.as_bytes()[start + 1..place - 1].iter().rev();
            if before.take_while(|sign| **sign == b'\\').count() % 2 == 0 {
                return place;
            }
        }
        self.text.len()
    }

    /// A number, also one that is a string, or another word.
    pub(crate) fn word(&self, start: usize) -> &'t str {
        let end = if self.sign(start) == b'"' { self.end_of_string(start) } else { self.end_of_word(start) };
        self.note(start, end);
        self.text[start..end].trim_matches('"')
    }

    /// A string, and where it ends.
    pub(crate) fn string(&self, start: usize) -> Option<(Cow<'t, str>, usize)> {
        if self.sign(start) != b'"' {
            return None;
        }
        let end = self.end_of_string(start);
        self.note(start, end);
        let text = self.text.get(start + 1..end - 1)?;
        let text = if text.contains('\\') {
            Cow::Owned(serde_json::from_str(&self.text[start..end]).ok()?)
        } else {
            Cow::Borrowed(text)
        };
        Some((text, end))
    }
}

#[cfg(test)]
mod tests {
    use super::Normal;

    #[test]
    fn values_end_where_they_end() {
        let texts =
            ["null", "true", "-17", r#""""#, r#""a\"\\""#, r#""\\\\""#, r#""é[{""#, "[]", "{}", r#"[[],{"]":"\"]"}]"#];
        for value in texts {
            for behind in ["", ",1]", "}", "]"] {
                let text = format!("[{value}{behind}");
                assert_eq!(Normal::new(&text).end_of(1), 1 + value.len(), "{text}");
            }
        }
    }

    #[test]
    fn what_was_read_is_known() {
        let normal = Normal::new(r#"["7",8,"a\n"]"#);
        assert_eq!((normal.word(1), normal.next(1)), ("7", 5));
        assert_eq!((normal.word(5), normal.next(5)), ("8", 7));
        assert_eq!(normal.string(7), Some(("a\n".into(), 12)));
        assert_eq!((normal.next(7), normal.sign(12), normal.sign(13)), (12, b']', 0));
        assert_eq!(normal.string(5), None);
        normal.note(1, 9);
        assert_eq!((normal.end_of(1), normal.end_of(5)), (9, 6));
    }
}
