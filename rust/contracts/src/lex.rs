//! Cuts text into words. Two languages meet in a Rattle file: Rattle itself, and antt, the language of the clauses, in
//! which the files of `specs/` and `proofs/` are written. Each has its own words and its own comments, so whoever reads
//! the file says where antt begins. What neither is known to have is trouble, and is not passed over.

/// A word and its line, from 1.
#[derive(Clone, Copy, Debug, PartialEq, Eq)]
pub struct Word<'a> {
    pub text: &'a str,
    pub line: usize,
}

/// Why a text cannot be read, and the line.
#[derive(Clone, Debug, PartialEq, Eq)]
pub struct Trouble {
    pub line: usize,
    pub what: String,
}

pub type Read<T> = Result<T, Trouble>;

/// A text, and how far it is read.
pub struct Lexer<'a> {
    text: &'a str,
    at: usize,
    line: usize,
}

impl<'a> Lexer<'a> {
    pub fn new(text: &'a str) -> Read<Self> {
        seen(text)?;
        Ok(Lexer::over(text))
    }

    fn over(text: &'a str) -> Self {
        Lexer {
            text,
            at: 0,
            line: 1,
        }
    }

    pub fn line(&self) -> usize {
        self.line
    }

    pub fn trouble<T>(&self, what: impl Into<String>) -> Read<T> {
        Err(Trouble {
            line: self.line(),
            what: what.into(),
        })
    }

    fn rest(&self) -> &'a str {
        &self.text[self.at..]
    }

    /// The next word of Rattle: a name, a number, a literal of text, bytes or one character, a lifetime, `->`, `::`, or a sign.
    pub fn rattle(&mut self) -> Read<Option<Word<'a>>> {
        self.skip_comments()?;
        let rest = self.rest();
        let Some(first) = rest.chars().next() else {
            return Ok(None);
        };
        let len = match first {
            _ if named(first) => self.name()?,
            '"' => match quoted(rest, '"') {
                Some(len) => len,
                None => return self.trouble("has a literal that never ends"),
            },
            '\'' => self.character()?,
            _ if rest.starts_with("->") || rest.starts_with("::") => 2,
            _ if first.is_ascii_punctuation() => 1,
            _ => {
                return self.trouble(format!(
                    "has `{first}`, which is no word of Rattle that is known here"
                ))
            }
        };
        Ok(Some(self.take(len)))
    }

    /// Whether the text goes on with this, after comments.
    pub fn begins(&mut self, text: &str) -> Read<bool> {
        self.skip_comments()?;
        Ok(self.rest().starts_with(text))
    }

    fn take(&mut self, len: usize) -> Word<'a> {
        let line = self.line;
        let text = &self.rest()[..len];
        self.at += len;
        self.line += text.matches('\n').count();
        Word { text, line }
    }

    /// Spaces, comments to the end of a line, and block comments, which nest.
    fn skip_comments(&mut self) -> Read<()> {
        loop {
            let rest = self.rest();
            self.take(rest.len() - rest.trim_start().len());
            let rest = self.rest();
            if rest.starts_with("//") {
                self.take(rest.find('\n').unwrap_or(rest.len()));
            } else if rest.starts_with("/*") {
                match nested(rest, "/*", "*/") {
                    Some(len) => self.take(len),
                    None => return self.trouble("has a comment that never ends"),
                };
            } else {
                return Ok(());
            }
        }
    }

    /// The length of the name or number here, or of a byte string or literal, which begins with the name `b`.
    fn name(&self) -> Read<usize> {
        let rest = self.rest();
        let len = rest.find(|c| !named(c)).unwrap_or(rest.len());
        match (&rest[..len], rest[len..].chars().next()) {
            ("b", Some(quote @ ('"' | '\''))) => match quoted(&rest[1..], quote) {
                Some(text) => Ok(1 + text),
                None => self.trouble("has a literal that never ends"),
            },
            (word, Some('"' | '\'' | '#')) => {
                self.trouble(format!("has a literal that begins with `{word}`"))
            }
            _ => Ok(len),
        }
    }

    /// The length of the literal of one character here, or of the lifetime, after which stands no second `'`.
    fn character(&self) -> Read<usize> {
        let rest = self.rest();
        let mut inner = rest[1..].chars();
        let name = rest[1..].find(|c| !named(c)).unwrap_or(rest.len() - 1);
        let len = match (inner.next(), inner.next()) {
            (Some('\\'), _) => quoted(rest, '\''),
            (Some(c), Some('\'')) if c != '\'' => Some(2 + c.len_utf8()),
            _ => Some(1 + name).filter(|len| name > 0 && !rest[*len..].starts_with('\'')),
        };
        match len {
            Some(len) => Ok(len),
            None => self.trouble("has a `'` that begins no lifetime"),
        }
    }

    /// The antt text up to the brace that closes the one just read. Nothing may stand in it by which a brace might not
    /// count: no comment, no quoted text.
    pub fn clause(&mut self) -> Read<&'a str> {
        let mut depth = 1;
        for (at, c) in self.rest().char_indices() {
            match c {
                '{' => depth += 1,
                '}' => depth -= 1,
                _ => {}
            }
            if depth == 0 {
                let text = self.take(at).text;
                self.take(1);
                return match UNCOUNTED.iter().find(|part| text.contains(**part)) {
                    Some(part) => self.trouble(format!("has `{part}` in a clause")),
                    None => Ok(text),
                };
            }
        }
        self.trouble("has a clause that never ends")
    }

    /// The antt text up to the next `;`, which is passed.
    pub fn until_semicolon(&mut self) -> Read<Word<'a>> {
        let Some(len) = self.rest().find(';') else {
            return self.trouble("has a line that never ends");
        };
        let found = self.take(len);
        self.take(1);
        match UNCOUNTED.iter().find(|part| found.text.contains(**part)) {
            Some(part) => self.trouble(format!("has `{part}` in a `ghost use`")),
            None => Ok(found),
        }
    }
}

/// Comments of both languages, and what may hide one.
const UNCOUNTED: [&str; 7] = ["--", "{-", "-}", "//", "/*", "*/", "\""];

/// A text in which a character stands that cannot be seen, or turns others, is not read, wherever it is. One that looks
/// like a space may be a part of a name.
pub fn seen(text: &str) -> Read<()> {
    let space = |c: char| c == ' ' || c == '\n';
    let unseen = |c: char| (c.is_control() || c.is_whitespace()) && !space(c) || turns(c);
    match text.find(unseen) {
        Some(at) => Err(Trouble {
            line: text[..at].matches('\n').count() + 1,
            what: "has a character that cannot be seen".to_string(),
        }),
        None => Ok(()),
    }
}

/// Characters that turn the direction of a text, or have no width.
fn turns(c: char) -> bool {
    let code = c as u32;
    let ranges = [
        0xad..=0xad,
        0x200b..=0x200f,
        0x202a..=0x202e,
        0x2060..=0x2069,
        0xfe00..=0xfe0f,
        0xfeff..=0xfeff,
    ];
    ranges.iter().any(|range| range.contains(&code))
}

fn named(c: char) -> bool {
    c.is_ascii_alphanumeric() || c == '_'
}

/// The length of the quoted text that begins here.
fn quoted(text: &str, quote: char) -> Option<usize> {
    let mut escaped = false;
    for (at, c) in text.char_indices().skip(1) {
        match c {
            _ if escaped => escaped = false,
            '\\' => escaped = true,
            _ if c == quote && (quote == '"' || at > 1) => return Some(at + 1),
            _ => {}
        }
    }
    None
}

/// The length of the comment that begins here.
fn nested(text: &str, opens: &str, closes: &str) -> Option<usize> {
    let (mut depth, mut at) = (0, 0);
    while at < text.len() {
        let rest = &text[at..];
        if rest.starts_with(opens) {
            depth += 1;
            at += opens.len();
        } else if rest.starts_with(closes) {
            depth -= 1;
            at += closes.len();
            if depth == 0 {
                return Some(at);
            }
        } else {
            at += rest.chars().next().map_or(1, char::len_utf8);
        }
    }
    None
}

/// Characters that are no part of an antt name, and words of their own.
const ALONE: &str = "(){}.;,@";

/// The words of an antt text. Comments are left out, and the marks of an escaped name are kept.
pub fn antt(text: &str) -> Vec<Word<'_>> {
    let pieces = pieces(text).into_iter();
    pieces
        .filter(|(kind, _)| *kind == Piece::Word)
        .map(|(_, word)| word)
        .collect()
}

/// An antt text with its comments blanked. Every line stays where it is.
pub fn uncommented(text: &str) -> String {
    let blank = |c: char| if c == '\n' { c } else { ' ' };
    let shown = |(kind, word): (Piece, Word)| match kind {
        Piece::Comment => word.text.chars().map(blank).collect(),
        _ => word.text.to_string(),
    };
    pieces(text).into_iter().map(shown).collect()
}

#[derive(Clone, Copy, PartialEq, Eq)]
enum Piece {
    Space,
    Comment,
    Word,
}

fn pieces(text: &str) -> Vec<(Piece, Word<'_>)> {
    let (mut found, mut lexer) = (Vec::new(), Lexer::over(text));
    while let Some(first) = lexer.rest().chars().next() {
        let rest = lexer.rest();
        let ends = |c: char| c.is_whitespace() || ALONE.contains(c) || "«\"".contains(c);
        let (kind, len) = if first.is_whitespace() {
            (Piece::Space, first.len_utf8())
        } else if rest.starts_with("--") {
            (Piece::Comment, rest.find('\n').unwrap_or(rest.len()))
        } else if rest.starts_with("{-") {
            (
                Piece::Comment,
                nested(rest, "{-", "-}").unwrap_or(rest.len()),
            )
        } else {
            let len = match first {
                '"' => quoted(rest, '"').unwrap_or(rest.len()),
                '«' => rest.find('»').map_or(rest.len(), |at| at + '»'.len_utf8()),
                _ if ends(first) => first.len_utf8(),
                _ => rest.find(ends).unwrap_or(rest.len()),
            };
            (Piece::Word, len)
        };
        found.push((kind, lexer.take(len)));
    }
    found
}

/// A name without the marks of an escaped one: `«x»` is `x`.
pub fn bare(name: &str) -> &str {
    let inner = name
        .strip_prefix('«')
        .and_then(|name| name.strip_suffix('»'));
    inner.unwrap_or(name)
}

#[cfg(test)]
mod tests {
    use super::*;

    fn texts(text: &str) -> Read<Vec<&str>> {
        let mut lexer = Lexer::new(text)?;
        let mut found = Vec::new();
        while let Some(word) = lexer.rattle()? {
            found.push(word.text);
        }
        Ok(found)
    }

    fn antts(text: &str) -> Vec<&str> {
        antt(text).iter().map(|word| word.text).collect()
    }

    #[test]
    fn rattle_has_names_literals_lifetimes_and_signs() {
        let text =
            "a // { \"\nio(b\"}\\\"}\", b'\"', b'\\'', b'{') + 'b -> x::y \"C\" \"}//\\\\\" 0x1_f '\"' '\\'' 'é' '_>";
        let expected = [
            "a",
            "io",
            "(",
            "b\"}\\\"}\"",
            ",",
            "b'\"'",
            ",",
            "b'\\''",
            ",",
            "b'{'",
            ")",
            "+",
            "'b",
            "->",
            "x",
            "::",
            "y",
            "\"C\"",
            "\"}//\\\\\"",
            "0x1_f",
            "'\"'",
            "'\\''",
            "'é'",
            "'_",
            ">",
        ];
        assert_eq!(texts(text).as_deref(), Ok(&expected[..]));
    }

    #[test]
    fn block_comments_nest_and_hide_quotes() {
        let text = "a /* \" /* b */ \" */ c /* \" */ d /* \" */ e /**/ f // /*\ng";
        assert_eq!(
            texts(text).as_deref(),
            Ok(&["a", "c", "d", "e", "f", "g"][..])
        );
    }

    #[test]
    fn what_is_not_known_is_trouble() {
        for text in [
            "/* a /* b */",
            "\"text",
            "f\"text\"",
            "''",
            "'''",
            "'ab'",
            "'\\'",
            "'\n",
            "br\"a\"",
            "br#\"a\"#",
            "r#fn",
            "c\"a\"",
            "b\"a",
            "ｐub",
            "a ≡ b",
            "a\u{202e}b",
            "// a\rfn",
            "a\u{200b}b",
            "a\u{a0}b",
            "a\tb",
            "«a»",
            "'",
        ] {
            assert!(texts(text).is_err(), "{text}");
        }
    }

    #[test]
    fn words_know_their_lines() {
        let mut lexer = Lexer::new("pub /*\n*/ fn\nf").unwrap();
        let mut lines = Vec::new();
        while let Some(word) = lexer.rattle().unwrap() {
            lines.push(word.line);
        }
        assert_eq!(lines, [1, 2, 3]);
    }

    #[test]
    fn a_clause_ends_at_its_brace_and_has_no_comment() {
        let mut lexer = Lexer::new(" a { b } c } d").unwrap();
        assert_eq!(lexer.clause(), Ok(" a { b } c "));
        for text in [
            "a -- }\n}",
            "a {- } -} }",
            "a // }",
            "a /* } */ }",
            "\"}\" }",
            "a",
        ] {
            assert!(Lexer::new(text).unwrap().clause().is_err(), "{text}");
        }
    }

    #[test]
    fn antt_words_are_runs_of_other_characters() {
        let text = "f (mem.new) ≡ «le_8» x+y -- gone\n {- gone {- too -} -} [] a--b ◌≡◌";
        let expected = [
            "f",
            "(",
            "mem",
            ".",
            "new",
            ")",
            "≡",
            "«le_8»",
            "x+y",
            "[]",
            "a--b",
            "◌≡◌",
        ];
        assert_eq!(antts(text), expected);
        assert_eq!((bare("«le_8»"), bare("x")), ("le_8", "x"));
    }
}
