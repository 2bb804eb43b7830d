//! JSON objects, one a line.

use std::fmt::Write;

/// An object whose fields stand in the order in which they were put.
pub struct Object(String);

impl Object {
    pub fn new() -> Self {
        Self(String::new())
    }

    pub fn text(self, key: &str, value: &str) -> Self {
        let value = string(value);
        self.field(key, &value)
    }

    pub fn number(self, key: &str, value: u64) -> Self {
        self.field(key, &value.to_string())
    }

    pub fn optional(self, key: &str, value: Option<u64>) -> Self {
        match value {
            Some(value) => self.number(key, value),
            None => self,
        }
    }

    /// An address, as text in hex: JSON's numbers are not sure to hold 64 bits.
    pub fn address(self, key: &str, value: u64) -> Self {
        self.text(key, &format!("{value:#x}"))
    }

    fn field(mut self, key: &str, value: &str) -> Self {
        let comma = if self.0.is_empty() { "" } else { "," };
        write!(self.0, "{comma}{}:{value}", string(key)).expect("a String takes all");
        self
    }

    pub fn line(self) -> String {
        format!("{{{}}}", self.0)
    }
}

/// A string in JSON's quotes.
fn string(text: &str) -> String {
    let escaped: String = text.chars().map(escape).collect();
    format!("\"{escaped}\"")
}

fn escape(c: char) -> String {
    match c {
        '"' | '\\' => format!("\\{c}"),
        '\0'..='\x1f' => format!("\\u{:04x}", u32::from(c)),
        _ => c.to_string(),
    }
}

#[cfg(test)]
mod tests {
    use super::Object;

    #[test]
    fn an_object_in_one_line() {
        let object = Object::new()
            .text("a\"b", "c\\d\n")
            .number("n", u64::MAX)
            .address("at", 16);
        assert_eq!(
            object.line(),
            r#"{"a\"b":"c\\d\u000a","n":18446744073709551615,"at":"0x10"}"#
        );
        assert_eq!(Object::new().line(), "{}");
    }
}
