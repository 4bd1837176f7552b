// SPDX-License-Identifier: Apache-2.0
//! The part of JSON that a header of footers is written in: lists and objects of texts, truths and counts.
use std::fmt::Write;

/// How deep lists and objects may stand in one another.
const MAX_DEPTH: usize = 8;

/// How many members an object may have.
const MAX_MEMBERS: usize = 16;

/// A value. A number is a count: a whole number from 0 to 2^63 - 1.
#[derive(Clone, Debug, PartialEq, Eq)]
pub(crate) enum Json {
    Bool(bool),
    Count(u64),
    Text(String),
    List(Vec<Json>),
    /// The members in order; no name stands twice.
    Object(Vec<(String, Json)>),
}

impl Json {
    // Writes the value as Python's `json.dumps` does by default.
    pub(crate) fn write(&self, out: &mut String) {
        match self {
            Json::Bool(truth) => out.push_str(if *truth { "true" } else { "false" }),
            Json::Count(count) => out.push_str(&count.to_string()),
            Json::Text(text) => write_text(text, out),
            Json::List(items) => {
                out.push('[');
                for (place, item) in items.iter().enumerate() {
                    out.push_str(if place > 0 { ", " } else { "" });
                    item.write(out);
                }
                out.push(']');
            }
            Json::Object(members) => {
                out.push('{');
                for (place, (name, value)) in members.iter().enumerate() {
                    out.push_str(if place > 0 { ", " } else { "" });
                    write_text(name, out);
                    out.push_str(": ");
                    value.write(out);
                }
                out.push('}');
            }
        }
    }

    // Reads a text that is one value. `Err` says what is wrong, and at which byte.
    pub(crate) fn read(text: &str) -> Result<Json, String> {
        let mut reader = Reader { text, at: 0 };
        let found = reader.value(0).and_then(|value| {
            reader.spaces();
            if reader.at == text.len() {
                Ok(value)
            } else {
                Err("something stands behind the value")
            }
        });
        found.map_err(|words| format!("{words}, at byte {} of the header", reader.at))
    }
}

// Writes a text between quotes, in ASCII: other characters by their UTF-16 units.
fn write_text(text: &str, out: &mut String) {
    out.push('"');
    for letter in text.chars() {
        match letter {
            '"' => out.push_str("\\\""),
            '\\' => out.push_str("\\\\"),
            '\n' => out.push_str("\\n"),
            '\r' => out.push_str("\\r"),
            '\t' => out.push_str("\\t"),
            '\u{8}' => out.push_str("\\b"),
            '\u{c}' => out.push_str("\\f"),
            ' '..='\u{7f}' => out.push(letter),
            _ => {
                for unit in letter.encode_utf16(&mut [0; 2]) {
                    write!(out, "\\u{unit:04x}").expect("a String takes all that is written to it");
                }
            }
        }
    }
    out.push('"');
}

struct Reader<'a> {
    text: &'a str,
    at: usize,
}

type Read<T> = Result<T, &'static str>;

impl Reader<'_> {
    fn next(&self) -> Option<u8> {
        self.text.as_bytes().get(self.at).copied()
    }

    fn spaces(&mut self) {
        while matches!(self.next(), Some(b' ' | b'\t' | b'\n' | b'\r')) {
            self.at += 1;
        }
    }

    // Passes these characters, which have to come next.
    fn pass(&mut self, wanted: &'static str, missing: &'static str) -> Read<()> {
        if !self.text[self.at..].starts_with(wanted) {
            return Err(missing);
        }
        self.at += wanted.len();
        Ok(())
    }

    fn value(&mut self, depth: usize) -> Read<Json> {
        if depth > MAX_DEPTH {
            return Err("lists and objects nest too deep");
        }
        self.spaces();
        match self.next() {
            Some(b'{') => self.members(depth).map(Json::Object),
            Some(b'[') => self.items(depth).map(Json::List),
            Some(b'"') => self.string().map(Json::Text),
            Some(b't') => self.pass("true", "a value is expected").map(|()| Json::Bool(true)),
            Some(b'f') => self.pass("false", "a value is expected").map(|()| Json::Bool(false)),
            Some(b'0'..=b'9') => self.count().map(Json::Count),
            _ => Err("a text, a truth, a count, a list or an object is expected"),
        }
    }

    fn items(&mut self, depth: usize) -> Read<Vec<Json>> {
        let mut items = Vec::new();
        self.listed(b']', |reader| {
            items.push(reader.value(depth + 1)?);
            Ok(())
        })?;
        Ok(items)
    }

    fn members(&mut self, depth: usize) -> Read<Vec<(String, Json)>> {
        let mut members: Vec<(String, Json)> = Vec::new();
        self.listed(b'}', |reader| {
            let name = reader.string()?;
            if members.iter().any(|(other, _)| *other == name) {
                return Err("a name stands twice in an object");
            }
            if members.len() == MAX_MEMBERS {
                return Err("an object has too many members");
            }
            reader.spaces();
            reader.pass(":", "a colon is expected")?;
            members.push((name, reader.value(depth + 1)?));
            Ok(())
        })?;
        Ok(members)
    }

    // Reads what stands between an opening bracket and this closing one, with commas between the items.
    fn listed(&mut self, close: u8, mut item: impl FnMut(&mut Self) -> Read<()>) -> Read<()> {
        self.at += 1;
        self.spaces();
        if self.next() == Some(close) {
            self.at += 1;
            return Ok(());
        }
        loop {
            self.spaces();
            item(self)?;
            self.spaces();
            match self.next() {
                Some(b',') => self.at += 1,
                Some(found) if found == close => {
                    self.at += 1;
                    return Ok(());
                }
                _ => return Err("a comma or a closing bracket is expected"),
            }
        }
    }

    fn count(&mut self) -> Read<u64> {
        let digits = self.text[self.at..].bytes().take_while(u8::is_ascii_digit).count();
        let found = &self.text[self.at..self.at + digits];
        if digits > 1 && found.starts_with('0') {
            return Err("a count begins with 0");
        }
        let count = found.parse().ok().filter(|count| *count <= i64::MAX as u64);
        let count = count.ok_or("a count is above 2^63 - 1")?;
        self.at += digits;
        match self.next() {
            Some(b'.' | b'e' | b'E') => Err("a count has a fraction or an exponent"),
            _ => Ok(count),
        }
    }

    fn string(&mut self) -> Read<String> {
        self.pass("\"", "a text is expected")?;
        let mut found = String::new();
        loop {
            let rest = &self.text[self.at..];
            let plain = rest.find(|letter: char| matches!(letter, '"' | '\\') || letter < ' ');
            let plain = plain.ok_or("a text has no closing quote")?;
            found.push_str(&rest[..plain]);
            self.at += plain;
            match self.next() {
                Some(b'"') => {
                    self.at += 1;
                    return Ok(found);
                }
                Some(b'\\') => found.push(self.escaped()?),
                _ => return Err("a text has a control character"),
            }
        }
    }

    fn escaped(&mut self) -> Read<char> {
        self.at += 1;
        let letter = self.next().ok_or("a text has no closing quote")?;
        if letter == b'u' {
            self.at += 1;
            return self.unicode();
        }
        let found = match letter {
            b'"' | b'\\' | b'/' => char::from(letter),
            b'n' => '\n',
            b'r' => '\r',
            b't' => '\t',
            b'b' => '\u{8}',
            b'f' => '\u{c}',
            _ => return Err("a text has an unknown escape"),
        };
        self.at += 1;
        Ok(found)
    }

    // Reads a character by one UTF-16 unit or by two of them.
    fn unicode(&mut self) -> Read<char> {
        let mut units = vec![self.unit()?];
        if (0xd800..0xdc00).contains(&units[0]) {
            self.pass("\\u", "half a character stands alone")?;
            units.push(self.unit()?);
        }
        let found = String::from_utf16(&units).map_err(|_| "half a character stands alone")?;
        found.chars().next().ok_or("half a character stands alone")
    }

    fn unit(&mut self) -> Read<u16> {
        let digits = self.text.get(self.at..self.at + 4).ok_or("an escape has four hexadecimal digits")?;
        if !digits.bytes().all(|digit| digit.is_ascii_hexdigit()) {
            return Err("an escape has four hexadecimal digits");
        }
        self.at += 4;
        u16::from_str_radix(digits, 16).map_err(|_| "an escape has four hexadecimal digits")
    }
}

#[cfg(test)]
mod tests {
    use super::Json;

    #[test]
    fn read_takes_what_write_gives() {
        let text = "a \"b\" \\ / \n\r\t\u{8}\u{c}\u{1}\u{7f}é\u{fffd}🐎";
        let value = Json::Object(vec![
            (
                "".to_owned(),
                Json::List(vec![Json::Bool(true), Json::Bool(false), Json::Count(i64::MAX as u64), Json::Count(0)]),
            ),
            (text.to_owned(), Json::Text(text.to_owned())),
            ("none".to_owned(), Json::List(vec![Json::Object(vec![]), Json::List(vec![])])),
        ]);
        let mut written = String::new();
        value.write(&mut written);
        assert!(written.is_ascii());
        assert_eq!(Json::read(&written), Ok(value));
        assert!(written.contains("\\b\\f\\u0001\u{7f}\\u00e9\\ufffd\\ud83d\\udc0e\": \"a "), "{written}");
    }

    #[test]
    fn read_takes_every_escape_and_space() {
        let found = Json::read(" \t\r\n[ \"\\/\\\"\\\\\\u00E9\\uD83D\\uDC0Eé\" , 1\n]\n");
        assert_eq!(found, Ok(Json::List(vec![Json::Text("/\"\\é🐎é".to_owned()), Json::Count(1)])));
    }

    fn refuses(texts: &[&str]) {
        for text in texts {
            assert!(Json::read(text).is_err(), "{text}");
        }
    }

    #[test]
    fn read_refuses_lists_and_objects_that_are_none() {
        refuses(&["", " ", "[", "]", "{", "[1", "[1,", "[1,]", "[,1]", "[1 2]", "1 1", "[]]", "1,", "[\u{a0}1]"]);
        refuses(&["{\"a\"}", "{\"a\":}", "{\"a\":1,}", "{1:1}", "{\"a\":1,\"a\":1}", "{\"a\" 1}"]);
    }

    #[test]
    fn read_refuses_all_but_truths_and_counts() {
        refuses(&["nul", "null", "tru", "True", "NaN", "-1", "-0", "+1", "01", "00", "1.0", "1e3", "1E3", ".5"]);
        refuses(&["9223372036854775808", "18446744073709551616", "100000000000000000000000"]);
    }

    #[test]
    fn read_refuses_texts_that_are_none() {
        refuses(&["\"", "\"a", "\"\\\"", "\"\\", "\"\\x\"", "\"\n\"", "\"\u{1f}\"", "'a'"]);
        refuses(&["\"\\u12\"", "\"\\u12g4\"", "\"\\u+123\"", "\"\\u00é\""]);
        refuses(&["\"\\ud800\"", "\"\\ud800\\u0041\"", "\"\\udc00\"", "\"\\ud800x\"", "\"\\udc00\\ud800\""]);
    }

    #[test]
    fn read_refuses_many_members_and_levels() {
        let members = |count| (0..count).map(|it| format!("\"{it}\":1")).collect::<Vec<_>>().join(",");
        assert!(Json::read(&format!("{{{}}}", members(16))).is_ok());
        assert!(Json::read(&format!("{{{}}}", members(17))).is_err());
        assert!(Json::read(&format!("{}{}", "[".repeat(9), "]".repeat(9))).is_ok());
        assert!(Json::read(&format!("{}{}", "[".repeat(10), "]".repeat(10))).is_err());
        refuses(&["[".repeat(100_000).as_str(), "{\"\":".repeat(100_000).as_str()]);
    }
}
