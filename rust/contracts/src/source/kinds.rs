//! Reads types: those of heads, and those that a file declares. What is public has types of few forms, and what is private may have
//! further ones: such a one is noted where it stands, and is a fault once it is known to be public.

use std::mem;

use super::{Function, Made, Parser, Passed, Thing, OF_ITEMS};
use crate::lex::Read;
use crate::symbols::is_held;

/// The types and traits of std that have types in angle brackets. A trait or a `use` of the repository's own may not have their names.
pub(super) const OF_STD: [&str; 4] = ["Option", "Result", "From", "TryFrom"];

impl<'a> Parser<'a> {
    fn note(&mut self, word: &'a str) {
        self.further.get_or_insert(word);
    }

    /// What is declared is done. If it is public, nothing was noted.
    fn done(&mut self, path: String, public: bool, line: usize) -> Read<()> {
        let (types, further) = (mem::take(&mut self.paths), self.further.take());
        match further {
            Some(word) if public => return self.unknown(word, "in a public type"),
            _ if public => self.found.made.push(Made {
                line,
                path: path.clone(),
                module: self.module.clone(),
                thing: Thing::Type,
                types,
                traits: Vec::new(),
            }),
            _ => {}
        }
        self.found.types.insert(path, public);
        Ok(())
    }

    /// A struct. If it is public it may hold a reference to be read, and none to be changed: what a value lends so would not be seen in
    /// a function's head.
    pub(super) fn structure(&mut self, path: &str, public: bool) -> Read<()> {
        let path = self.type_name(path, public)?;
        let line = self.lexer.line();
        if self.peek()? == "<" {
            self.angles()?;
        }
        match self.word()? {
            ";" => {}
            "{" => {
                let fields = self.fields(true)?;
                self.found.fields.insert(path.clone(), fields);
            }
            "(" => {
                self.unnamed(true)?;
                self.expect(";")?;
            }
            word => return self.unknown(word, "after a type's name"),
        }
        self.done(path, public, line)
    }

    /// An enum, of whose variants each may have a number.
    pub(super) fn enumeration(&mut self, path: &str, public: bool) -> Read<()> {
        let path = self.type_name(path, public)?;
        let line = self.lexer.line();
        if self.peek()? == "<" {
            self.angles()?;
        }
        self.expect("{")?;
        loop {
            match self.peek()? {
                "}" => break,
                "," => self.expect(",")?,
                "#" => self.all_of(&["#", "[", "default", "]"])?,
                _ => self.variant()?,
            }
        }
        self.expect("}")?;
        self.done(path, public, line)
    }

    fn variant(&mut self) -> Read<()> {
        self.name()?;
        match self.peek()? {
            "{" => {
                self.expect("{")?;
                self.fields(false)?;
            }
            "(" => {
                self.expect("(")?;
                self.unnamed(false)?;
            }
            _ => {}
        }
        if self.peek()? != "=" {
            return Ok(());
        }
        self.expect("=")?;
        match self.word()? {
            word if word.starts_with(|c: char| c.is_ascii_digit()) => Ok(()),
            word => self.unknown(word, "for a variant's number"),
        }
    }

    /// The name of a struct or an enum, as its path.
    fn type_name(&mut self, path: &str, public: bool) -> Read<String> {
        let path = format!("{path}::{}", self.name()?);
        if !public {
            self.hidden.insert(path.clone());
        }
        Ok(path)
    }

    /// Fields with names, up to the brace that closes them. A ghost one says what holds of every value, and so asks it of who makes one.
    fn fields(&mut self, lends: bool) -> Read<Vec<String>> {
        let mut found = Vec::new();
        loop {
            match self.peek()? {
                "}" => {
                    self.expect("}")?;
                    return Ok(found);
                }
                "," => self.expect(",")?,
                _ => {
                    self.visibility()?;
                    let name = self.name()?;
                    if name == "ghost" {
                        self.note(name);
                        self.ghost_text(":")?;
                    } else {
                        found.push(name.to_string());
                        self.expect(":")?;
                        self.held(lends)?;
                    }
                }
            }
        }
    }

    /// Fields with none, up to the parenthesis that closes them.
    fn unnamed(&mut self, lends: bool) -> Read<()> {
        loop {
            match self.peek()? {
                ")" => return self.expect(")"),
                "," => self.expect(",")?,
                _ => {
                    self.visibility()?;
                    self.held(lends)?;
                }
            }
        }
    }

    /// A type that is held in another, which may lend something to be read, or nothing.
    fn held(&mut self, lends: bool) -> Read<()> {
        match self.reference()? {
            Passed::Value => {}
            Passed::Shared if lends => {}
            _ => self.note("&"),
        }
        self.plain()
    }

    /// `NAME = TYPE;`
    pub(super) fn alias(&mut self, path: &str, public: bool) -> Read<()> {
        let path = format!("{path}::{}", self.name()?);
        let line = self.lexer.line();
        self.expect("=")?;
        self.plain()?;
        self.expect(";")?;
        self.done(path, public, line)
    }

    /// `&`, `&mut`, perhaps with a lifetime, or nothing.
    pub(super) fn reference(&mut self) -> Read<Passed> {
        if self.peek()? != "&" {
            return Ok(Passed::Value);
        }
        self.expect("&")?;
        if self.peek()?.starts_with('\'') {
            self.word()?;
        }
        if self.peek()? != "mut" {
            return Ok(Passed::Shared);
        }
        self.expect("mut")?;
        Ok(Passed::Lent)
    }

    /// A type, perhaps a reference.
    pub(super) fn kind(&mut self) -> Read<Passed> {
        let passed = self.reference()?;
        self.plain()?;
        Ok(passed)
    }

    /// A path, an array or a slice of one, or `()`. A path may have lifetimes, and `Option` and `Result` have types. What is private may
    /// also have other parameters, be a tuple, an array of references, or be what has a trait, as `impl Print`.
    pub(super) fn plain(&mut self) -> Read<()> {
        match self.peek()? {
            "(" => self.tuple(),
            "[" => self.array(),
            "impl" => {
                self.note("impl");
                self.expect("impl")?;
                self.path()
            }
            _ => self.path(),
        }
    }

    fn tuple(&mut self) -> Read<()> {
        self.expect("(")?;
        if self.peek()? != ")" {
            self.note("(");
        }
        self.skip(")", &[])
    }

    fn array(&mut self) -> Read<()> {
        self.expect("[")?;
        if self.peek()? == "&" {
            self.note("&");
        }
        self.kind()?;
        match self.word()? {
            "]" => Ok(()),
            ";" => self.skip("]", &["{"]),
            word => self.unknown(word, "in a type"),
        }
    }

    fn path(&mut self) -> Read<()> {
        let first = self.name()?;
        let (mut last, mut path) = (first, first.to_string());
        while self.peek()? == "::" {
            self.expect("::")?;
            last = self.name()?;
            path = format!("{path}::{last}");
        }
        self.paths.push(path);
        match self.peek()? {
            "(" if last.starts_with("Fn") => self.closure(),
            "<" if OF_STD.contains(&first) && first == last => self.arguments(),
            "<" => self.angles(),
            _ => Ok(()),
        }
    }

    /// What a closure takes and answers, after `Fn`.
    fn closure(&mut self) -> Read<()> {
        self.note("Fn");
        self.expect("(")?;
        self.skip(")", &[])?;
        if self.peek()? != "->" {
            return Ok(());
        }
        self.expect("->")?;
        self.plain()
    }

    /// Types in angle brackets.
    fn arguments(&mut self) -> Read<()> {
        self.expect("<")?;
        loop {
            match self.peek()? {
                ">" => return self.expect(">"),
                "," => self.expect(",")?,
                _ => self.held(false)?,
            }
        }
    }

    /// What stands in angle brackets after the name of a type, or of what is private: of what is public, lifetimes alone.
    pub(super) fn angles(&mut self) -> Read<()> {
        self.expect("<")?;
        let mut depth = 1;
        while depth > 0 {
            match self.word()? {
                "<" => depth += 1,
                ">" => depth -= 1,
                "," => {}
                "[" => {
                    self.note("[");
                    self.skip("]", &["{"])?;
                }
                word if word.starts_with('\'') => {}
                word @ ("impl" | "dyn") => self.note(word),
                word if OF_ITEMS.contains(&word) || ["{", "}", ";"].contains(&word) => {
                    return self.unknown(word, "between a type's angle brackets")
                }
                word => self.note(word),
            }
        }
        Ok(())
    }

    /// What a public function is over: lifetimes, types by their bounds, which are given back, and numbers. A type with no bound might
    /// be anything.
    pub(super) fn bounded(&mut self, function: &mut Function) -> Read<Vec<String>> {
        let mut found = Vec::new();
        self.expect("<")?;
        loop {
            match self.peek()? {
                ">" => return self.expect(">").map(|()| found),
                "," => self.expect(",")?,
                "const" => {
                    self.expect("const")?;
                    function.names.push(self.over()?);
                    self.expect(":")?;
                    self.name()?;
                }
                word if word.starts_with('\'') => {
                    self.word()?;
                }
                _ => {
                    function.types.push(self.over()?);
                    self.expect(":")?;
                    found.extend(self.bounds()?);
                }
            }
        }
    }

    /// The name of such a type or number, which clauses may say.
    fn over(&mut self) -> Read<String> {
        match self.name()? {
            name if is_held(name) => self.unknown(name, "for what a function is over"),
            name => Ok(name.to_string()),
        }
    }

    /// Traits, joined by `+`.
    pub(super) fn bounds(&mut self) -> Read<Vec<String>> {
        let (mut found, mut path) = (Vec::new(), String::new());
        loop {
            path.push_str(self.name()?);
            match self.peek()? {
                "::" => {
                    self.expect("::")?;
                    path.push_str("::");
                }
                "+" => {
                    self.expect("+")?;
                    found.push(mem::take(&mut path));
                }
                _ => {
                    found.push(path);
                    return Ok(found);
                }
            }
        }
    }
}
