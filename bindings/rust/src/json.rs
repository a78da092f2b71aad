//! Spells the text of a fault anew, as the library spells it.

use std::collections::BTreeMap;

/// The same JSON with no space, with no escape where none is needed, the keys of an object in the order of their bytes, and of
/// equal keys the last one alone. The text is one that the library takes for a fault: so arrays, which no fault has, count
/// for nothing and are left empty. None where it isn't JSON.
pub(crate) fn respelled(text: &str) -> Option<String> {
    Text { rest: text }.value()
}

/// What is left of a text.
struct Text<'a> {
    rest: &'a str,
}

impl Text<'_> {
    /// Takes a character where it is this one, and the spaces around it.
    fn takes(&mut self, expected: char) -> bool {
        let stripped = self.rest.trim_start().strip_prefix(expected);
        self.rest = stripped.map_or(self.rest, str::trim_start);
        stripped.is_some()
    }

    fn take(&mut self, expected: char) -> Option<()> {
        if self.takes(expected) {
            Some(())
        } else {
            None
        }
    }

    fn value(&mut self) -> Option<String> {
        self.rest = self.rest.trim_start();
        match self.rest.chars().next()? {
            '{' => self.object(),
            '[' => self.array(),
            '"' => self.string(),
            _ => self.word(),
        }
    }

    fn object(&mut self) -> Option<String> {
        let mut members = BTreeMap::new();
        self.take('{')?;
        while !self.takes('}') {
            self.takes(',');
            let key = self.string()?;
            self.take(':')?;
            let value = self.value()?;
            members.insert(key, value);
        }
        let members: Vec<_> = members.iter().map(|(key, value)| format!("{}:{}", key, value)).collect();
        Some(format!("{{{}}}", members.join(",")))
    }

    fn array(&mut self) -> Option<String> {
        self.take('[')?;
        while !self.takes(']') {
            self.takes(',');
            self.value()?;
        }
        Some("[]".to_string())
    }

    /// A string with its quotes.
    fn string(&mut self) -> Option<String> {
        let mut text = String::from("\"");
        self.rest = self.rest.strip_prefix('"')?;
        loop {
            let (plain, rest) = self.rest.split_at(self.rest.find(['"', '\\'])?);
            text.push_str(plain);
            if let Some(rest) = rest.strip_prefix('"') {
                self.rest = rest;
                text.push('"');
                return Some(text);
            }
            let escape = rest.get(..if rest.starts_with("\\u") { 6 } else { 2 })?;
            self.rest = &rest[escape.len()..];
            match plain_character(escape) {
                Some(character) => text.push(character),
                None => text.push_str(escape),
            }
        }
    }

    /// A number, true, false or null.
    fn word(&mut self) -> Option<String> {
        let end = self.rest.find(|it: char| ",]}".contains(it) || it.is_whitespace()).unwrap_or(self.rest.len());
        let (word, rest) = self.rest.split_at(end);
        self.rest = rest;
        if word.is_empty() {
            None
        } else {
            Some(word.to_string())
        }
    }
}

/// The character of an escape `\u0000`, where it needs none.
fn plain_character(escape: &str) -> Option<char> {
    let code = u8::from_str_radix(escape.strip_prefix("\\u")?, 16).ok()?;
    Some(char::from(code)).filter(|it| matches!(it, ' '..='~') && !matches!(it, '"' | '\\'))
}

#[cfg(test)]
mod tests {
    use super::respelled;

    #[test]
    fn spells_as_the_library_does() {
        for (text, spelled) in [
            (" { \"b\" : 1 ,\n\t\"a\" : \"x\" } \r", r#"{"a":"x","b":1}"#),
            (r#"{"\u0061":"\u002D1","b":{"d":1,"\u0063":-0}}"#, r#"{"a":"-1","b":{"c":-0,"d":1}}"#),
            (r#"{"a":1,"b":[1,"]",{"c":[]}],"a":{"a":2}}"#, r#"{"a":{"a":2},"b":[]}"#),
            (
                r#"{"a":7,"\u0061":"\"\\\u0022\u005c\u00e9\ud83d\ude00é}"}"#,
                r#"{"a":"\"\\\u0022\u005c\u00e9\ud83d\ude00é}"}"#,
            ),
            ("{}", "{}"),
            (" null", "null"),
        ] {
            assert_eq!(respelled(text).as_deref(), Some(spelled), "{}", text);
        }
    }

    #[test]
    fn reads_no_text_that_is_cut() {
        let text = r#"{"a":{"b":[1,2]},"c":"\u0061"}"#;
        for length in 0..text.len() {
            assert_eq!(respelled(&text[..length]), None, "{}", &text[..length]);
        }
    }
}
