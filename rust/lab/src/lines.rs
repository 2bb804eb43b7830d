//! The words of a line: numbers, bits, hex and fields. What is wrong with one is said in a sentence.

use std::mem::size_of;
use std::str::SplitWhitespace;

/// What is wrong, as a sentence.
pub type Fault = String;

/// The words of a line, read one after another. A `#` begins a comment.
#[derive(Clone)]
pub struct Words<'a> {
    words: SplitWhitespace<'a>,
}

impl<'a> Words<'a> {
    pub fn new(line: &'a str) -> Self {
        let end = line.find('#').unwrap_or(line.len());
        let words = line[..end].split_whitespace();
        Self { words }
    }

    pub fn optional(&mut self) -> Option<&'a str> {
        self.words.next()
    }

    pub fn word(&mut self, what: &str) -> Result<&'a str, Fault> {
        self.optional().ok_or_else(|| format!("{what} is missing"))
    }

    /// A word that must stand here.
    pub fn exactly(&mut self, word: &str) -> Result<(), Fault> {
        match self.word(word)? {
            found if found == word => Ok(()),
            found => Err(format!("{} stands where {word} should", quoted(found))),
        }
    }

    pub fn number<T: TryFrom<u64>>(&mut self, what: &str) -> Result<T, Fault> {
        number(what, self.word(what)?)
    }

    pub fn bit(&mut self, what: &str) -> Result<bool, Fault> {
        bit(what, self.word(what)?)
    }

    /// The bytes that all words left say in hex, blanks between them or not.
    pub fn hex(&mut self, what: &str) -> Result<Vec<u8>, Fault> {
        let digits: String = self.words.by_ref().collect();
        if digits.is_empty() {
            return Err(format!("{what} is missing"));
        }
        hex(what, &digits)
    }

    pub fn end(&mut self) -> Result<(), Fault> {
        match self.optional() {
            None => Ok(()),
            Some(word) => Err(format!("{} is one word too many", quoted(word))),
        }
    }
}

/// Words of the form `key=value`, taken out by their keys.
pub struct Fields<'a> {
    given: Vec<(&'a str, &'a str)>,
}

impl<'a> Fields<'a> {
    /// All words left.
    pub fn new(words: &mut Words<'a>) -> Result<Self, Fault> {
        let field = |word: &'a str| {
            word.split_once('=')
                .ok_or_else(|| format!("{} is no field, as in key=value", quoted(word)))
        };
        let given = words.words.by_ref().map(field).collect::<Result<_, _>>()?;
        Ok(Self { given })
    }

    fn take(&mut self, key: &str) -> Option<&'a str> {
        let at = self.given.iter().position(|(given, _)| *given == key)?;
        Some(self.given.swap_remove(at).1)
    }

    pub fn number<T: TryFrom<u64>>(&mut self, key: &str, left_out: T) -> Result<T, Fault> {
        self.take(key)
            .map_or(Ok(left_out), |value| number(key, value))
    }

    pub fn bit(&mut self, key: &str) -> Result<bool, Fault> {
        self.take(key).map_or(Ok(false), |value| bit(key, value))
    }

    pub fn end(&self) -> Result<(), Fault> {
        match self.given.first() {
            None => Ok(()),
            Some((key, _)) => Err(format!(
                "the field {} is not known here, or given twice",
                quoted(key)
            )),
        }
    }
}

/// A number in decimal digits, or in hex digits after 0x.
pub fn number<T: TryFrom<u64>>(what: &str, text: &str) -> Result<T, Fault> {
    let (digits, radix) = match text.strip_prefix("0x") {
        Some(digits) => (digits, 16),
        None => (text, 10),
    };
    // The library's reader would also take a sign.
    if digits.is_empty() || !digits.chars().all(|c| c.is_digit(radix)) {
        return Err(format!(
            "{what} is {}, which is no number: decimal digits, or 0x and hex digits",
            quoted(text)
        ));
    }
    u64::from_str_radix(digits, radix)
        .ok()
        .and_then(|value| T::try_from(value).ok())
        .ok_or_else(|| {
            let bits = 8 * size_of::<T>();
            format!("{what} is {}, which is 2^{bits} or more", quoted(text))
        })
}

/// A bit, 0 or 1.
pub fn bit(what: &str, text: &str) -> Result<bool, Fault> {
    match text {
        "0" => Ok(false),
        "1" => Ok(true),
        _ => Err(format!("{what} is {}, and must be 0 or 1", quoted(text))),
    }
}

fn hex(what: &str, digits: &str) -> Result<Vec<u8>, Fault> {
    let nibble = |c: char| {
        c.to_digit(16).map(|n| n as u8).ok_or_else(|| {
            format!("{what} has {c:?}, which is no hex digit (hex is written without 0x here)")
        })
    };
    let nibbles = digits.chars().map(nibble).collect::<Result<Vec<_>, _>>()?;
    if nibbles.len() % 2 != 0 {
        return Err(format!(
            "{what} has {} hex digits, an odd number: a byte has two",
            nibbles.len()
        ));
    }
    Ok(nibbles
        .chunks(2)
        .map(|pair| pair[0] << 4 | pair[1])
        .collect())
}

/// A word in quotes, cut if it is long.
pub fn quoted(word: &str) -> String {
    const SHOWN: usize = 40;
    match word.char_indices().nth(SHOWN) {
        None => format!("{word:?}"),
        Some((end, _)) => format!("{:?}..", &word[..end]),
    }
}

#[cfg(test)]
mod tests {
    use super::*;

    #[test]
    fn numbers_are_decimal_or_hex_and_fit() {
        assert_eq!(number("N", "18446744073709551615"), Ok(u64::MAX));
        assert_eq!(number("N", "0xffffffffffffffff"), Ok(u64::MAX));
        assert_eq!(number("N", "0xFf"), Ok(255_u8));
        for bad in ["", "0x", "+1", "-1", "1_000", "0b1", "ff", "é", "0x0x1"] {
            let fault = number::<u64>("N", bad).unwrap_err();
            assert!(fault.contains("no number"), "{bad}: {fault}");
        }
        assert!(number::<u64>("N", "18446744073709551616")
            .unwrap_err()
            .contains("2^64"));
        assert!(number::<u8>("N", "256").unwrap_err().contains("2^8"));
    }

    #[test]
    fn hex_is_whole_bytes() {
        let read = |line| Words::new(line).hex("HEX");
        assert_eq!(read("00 fF 1 2 # comment"), Ok(vec![0, 255, 0x12]));
        assert!(read("abc").unwrap_err().contains("odd"));
        assert!(read("0x12").unwrap_err().contains("without 0x"));
        assert!(read("# 12").unwrap_err().contains("missing"));
    }

    #[test]
    fn a_field_left_over_is_a_fault() {
        let mut words = Words::new("a=1 a=2");
        let mut fields = Fields::new(&mut words).unwrap();
        assert_eq!(fields.number("a", 0_u8), Ok(1));
        assert_eq!(fields.number("b", 9_u8), Ok(9));
        assert!(fields.end().unwrap_err().contains("given twice"));
        assert!(Fields::new(&mut Words::new("a")).is_err());
    }

    #[test]
    fn a_long_word_is_cut_where_a_character_ends() {
        assert_eq!(quoted(&"é".repeat(50)), format!("{:?}..", "é".repeat(40)));
    }
}
