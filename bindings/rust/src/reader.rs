//! Reads texts of JSON as the library writes them: no space, no escape, the keys of an object in the order of their bytes.

/// What is left of a text. Each call takes what it says from its front, and gives None where something else is there.
pub(crate) struct Reader<'a> {
    rest: &'a str,
}

impl<'a> Reader<'a> {
    pub(crate) fn new(text: &'a str) -> Self {
        Reader { rest: text }
    }

    /// Exactly these characters.
    pub(crate) fn take(&mut self, expected: &str) -> Option<()> {
        self.rest = self.rest.strip_prefix(expected)?;
        Some(())
    }

    /// These characters, and whether they were there.
    pub(crate) fn takes(&mut self, expected: &str) -> bool {
        self.take(expected).is_some()
    }

    /// A member that isn't the first of its object, as `,"key":7`. Where there is another key, nothing is taken.
    pub(crate) fn number(&mut self, key: &str) -> Option<u64> {
        self.key(",", key)?;
        self.digits()?.parse().ok()
    }

    /// The first member of an object, as `{"key":7`.
    pub(crate) fn first_number(&mut self, key: &str) -> Option<u64> {
        self.key("{", key)?;
        self.digits()?.parse().ok()
    }

    /// A member that is the text of a number which a reader of JSON might round, as `,"key":"-7"`.
    pub(crate) fn wide_number(&mut self, key: &str) -> Option<i128> {
        self.key(",", key)?;
        self.wide()
    }

    /// A member that is two numbers, as `,"key":[7,8]`.
    pub(crate) fn numbers(&mut self, key: &str) -> Option<(u64, u64)> {
        self.key(",", key)?;
        self.take("[")?;
        let first = self.digits()?.parse().ok()?;
        self.take(",")?;
        let second = self.digits()?.parse().ok()?;
        self.take("]")?;
        Some((first, second))
    }

    /// The first member of an object, where it is the texts of two numbers, as `{"key":["-7","8"]`.
    pub(crate) fn first_wide_numbers(&mut self, key: &str) -> Option<(i128, i128)> {
        self.key("{", key)?;
        self.take("[")?;
        let first = self.wide()?;
        self.take(",")?;
        let second = self.wide()?;
        self.take("]")?;
        Some((first, second))
    }

    /// The text of a number with a sign, as `"-7"`.
    fn wide(&mut self) -> Option<i128> {
        self.take("\"")?;
        let is_negative = self.takes("-");
        let digits = self.digits()?;
        self.take("\"")?;
        match (is_negative, digits) {
            (true, "0") => None,
            // (with its sign: the least number has no positive counterpart)
            (true, _) => format!("-{}", digits).parse().ok(),
            (false, _) => digits.parse().ok(),
        }
    }

    /// A member whose value is still to be taken: what comes before the key, and the key.
    pub(crate) fn key(&mut self, before: &str, key: &str) -> Option<()> {
        // (nothing is taken where it is another key)
        self.rest = self.rest.strip_prefix(before)?.strip_prefix('"')?.strip_prefix(key)?.strip_prefix("\":")?;
        Some(())
    }

    /// The end of the text.
    pub(crate) fn end(&self) -> Option<()> {
        if self.rest.is_empty() {
            Some(())
        } else {
            None
        }
    }

    /// Decimal digits, of which the first is 0 only where it is the only one.
    fn digits(&mut self) -> Option<&'a str> {
        let rest = self.rest;
        let length = rest.bytes().take_while(u8::is_ascii_digit).count();
        let (digits, behind) = rest.split_at(length);
        if digits.is_empty() || (length > 1 && digits.starts_with('0')) {
            return None;
        }
        self.rest = behind;
        Some(digits)
    }
}

#[cfg(test)]
mod tests {
    use super::Reader;

    fn number(text: &str) -> Option<u64> {
        Reader::new(text).first_number("a")
    }

    fn wide_number(text: &str) -> Option<i128> {
        Reader::new(&format!(",\"x\":\"{}\"", text)).wide_number("x")
    }

    #[test]
    fn reads_whole_numbers_as_they_are_written() {
        assert_eq!(number("{\"a\":0}"), Some(0));
        assert_eq!(number("{\"a\":18446744073709551615}"), Some(u64::MAX));
        for text in ["{\"a\":}", "{\"a\":00}", "{\"a\":18446744073709551616}", "{\"b\":0}", "{ \"a\":0}", ""] {
            assert_eq!(number(text), None, "{}", text);
        }
    }

    #[test]
    fn reads_pairs_of_numbers() {
        assert_eq!(Reader::new(r#","a":[0,7]"#).numbers("a"), Some((0, 7)));
        assert_eq!(Reader::new(r#"{"a":["-9","0"]"#).first_wide_numbers("a"), Some((-9, 0)));
        for text in [r#","a":[0]"#, r#","a":[0,7,8]"#, r#","a":[00,7]"#, r#","a":["0","7"]"#, r#","b":[0,7]"#] {
            assert_eq!(Reader::new(text).numbers("a"), None, "{}", text);
        }
        for text in [r#"{"a":["9"]"#, r#"{"a":[9,0]"#, r#"{"a":["-0","0"]"#, r#","a":["9","0"]"#] {
            assert_eq!(Reader::new(text).first_wide_numbers("a"), None, "{}", text);
        }
    }

    #[test]
    fn reads_wide_numbers_with_a_sign() {
        for wide in [0, 7, -9, i128::MIN, i128::MAX] {
            assert_eq!(wide_number(&wide.to_string()), Some(wide));
        }
        for text in ["-0", "", "-", "+1", "01", "1.0", "--1", "170141183460469231731687303715884105728"] {
            assert_eq!(wide_number(text), None, "{}", text);
        }
    }
}
