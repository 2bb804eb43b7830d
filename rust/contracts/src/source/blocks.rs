//! Reads traits and impls, with their ghost members.

use std::mem;

use super::kinds::OF_STD;
use super::{Block, Function, Kind, Made, Member, Parser, Place, Thing};
use crate::lex::Read;

/// Of a trait of std whose function has its contract by what an impl says that it gives, the member that says it.
fn gives(of: &str) -> Option<&'static str> {
    match of {
        "From" => Some("from_gives"),
        "TryFrom" => Some("try_from_gives"),
        _ => None,
    }
}

pub fn converts(of: &str) -> bool {
    gives(of).is_some()
}

/// Whether no contract speaks of what a trait of std does.
pub fn only_shows(of: &str) -> bool {
    ["Display", "Error"].contains(&of)
}

impl<'a> Parser<'a> {
    /// A trait, perhaps with others above it.
    pub(super) fn declared_trait(&mut self, path: &str, public: bool, line: usize) -> Read<()> {
        let name = self.name()?;
        if OF_STD.contains(&name) {
            return self.unknown(name, "for a trait that is not std's");
        }
        let mut traits = Vec::new();
        if self.peek()? == ":" {
            self.expect(":")?;
            traits = self.bounds()?;
        }
        let block = Block {
            line,
            path: format!("{path}::{name}"),
            module: self.module.clone(),
            kind: Kind::Trait { public },
            of: name.to_string(),
            written: name.to_string(),
            members: Vec::new(),
        };
        if public {
            self.made(&block, Thing::Trait, Vec::new(), traits);
        }
        self.block(block)
    }

    /// `impl T {`, or `impl A for T {`.
    pub(super) fn implementation(&mut self, path: &str, line: usize) -> Read<()> {
        if self.peek()? == "<" {
            self.angles()?;
        }
        let of = self.words_of_type()?;
        if self.peek()? != "for" {
            self.further = None;
            self.paths.clear();
            return self.of_type(path, &of);
        }
        self.expect("for")?;
        let typed = self.words_of_type()?;
        let further = self.further.take();
        let mut paths = mem::take(&mut self.paths).into_iter();
        let written = paths.next().unwrap_or_default();
        let types: Vec<String> = paths.collect();
        let name = of.iter().take_while(|word| **word != "<").last();
        let name = *name.unwrap_or(&"");
        match further {
            Some(word) if !converts(name) && !only_shows(name) => {
                return self.unknown(word, "in the head of an impl")
            }
            _ => self.given_name()?,
        }
        let first = self.found.functions.len();
        let block = Block {
            line,
            path: format!("{path}::<{} as {}>", spelled(&typed), spelled(&of)),
            module: self.module.clone(),
            kind: Kind::Impl {
                typed: format!("{path}::{}", typed[0]),
            },
            of: name.to_string(),
            written,
            members: Vec::new(),
        };
        let of = vec![block.written.clone()];
        self.made(&block, Thing::Impl, types.clone(), of);
        self.block(block)?;
        self.conversion(first, &types, further);
        Ok(())
    }

    fn made(&mut self, block: &Block, thing: Thing, types: Vec<String>, traits: Vec<String>) {
        self.found.made.push(Made {
            line: block.line,
            path: block.path.clone(),
            module: block.module.clone(),
            thing,
            types,
            traits,
        });
    }

    /// The words of a type, or of a trait.
    fn words_of_type(&mut self) -> Read<Vec<&'a str>> {
        let first = self.words.len();
        self.plain()?;
        Ok(self.words[first..].to_vec())
    }

    /// The name with which the compiler prints an impl of a trait: `impl A for T as TA {`.
    fn given_name(&mut self) -> Read<()> {
        if self.bodiless && self.peek()? == "as" {
            self.expect("as")?;
            self.name()?;
        }
        Ok(())
    }

    /// An impl of no trait.
    fn of_type(&mut self, path: &str, words: &[&str]) -> Read<()> {
        match words {
            [name] | [name, "<", ..] => {
                self.expect("{")?;
                self.items(&format!("{path}::{name}"), Place::Impl)
            }
            _ => self.unknown(&spelled(words), "after `impl`"),
        }
    }

    fn block(&mut self, block: Block) -> Read<()> {
        let place = match block.kind {
            Kind::Trait { public } => Place::Trait { public },
            Kind::Impl { .. } => Place::Of,
        };
        self.expect("{")?;
        self.items(&block.path, place)?;
        let members = mem::take(&mut self.members);
        self.found.blocks.push(Block { members, ..block });
        Ok(())
    }

    /// `ghost use ..;`, or a member: in a trait `ghost m: { TYPE };`, in an impl of it `ghost m = { TERM };`
    pub(super) fn ghost(&mut self) -> Read<()> {
        let sign = match (self.peek()?, self.place) {
            ("use", _) => return self.ghost_use(),
            (_, Place::Trait { .. }) => ":",
            (_, Place::Of) => "=",
            _ => return self.expect("use"),
        };
        let member = self.ghost_text(sign)?;
        self.members.push(member);
        self.expect(";")
    }

    /// The name of something ghost, this sign, and a text in braces.
    pub(super) fn ghost_text(&mut self, sign: &str) -> Read<Member> {
        let line = self.lexer.line();
        let name = self.name()?.to_string();
        self.all_of(&[sign, "{"])?;
        let text = self.lexer.clause()?.to_string();
        Ok(Member { line, name, text })
    }

    /// What a function has of the block that it stands in. In a trait it is public as the trait is, and its clauses may say the members
    /// that stand before it.
    pub(super) fn of_block(&self, function: &mut Function) -> Read<()> {
        match self.place {
            Place::Trait { .. } | Place::Of if function.public => {
                self.unknown("pub", "in a trait, or in an impl of one")
            }
            Place::Trait { public } => {
                function.public = public;
                function.names = self.members.iter().map(|one| one.name.clone()).collect();
                function.types = vec!["Self".to_string()];
                Ok(())
            }
            _ => Ok(()),
        }
    }

    /// The function of an impl of `From` or `TryFrom` is public, unless its types are private, and its contract is the member.
    fn conversion(&mut self, first: usize, types: &[String], further: Option<&'a str>) {
        let Some(block) = self.found.blocks.last() else {
            return;
        };
        let Some(member) = gives(&block.of) else {
            return;
        };
        let given = block.members.iter().find(|one| one.name == member);
        let text = given.map(|one| one.text.clone()).unwrap_or_default();
        for function in self.found.functions.iter_mut().skip(first) {
            function.public = true;
            function.gives = Some(text.clone());
        }
        for head in self.heads.iter_mut().filter(|head| head.at >= first) {
            head.converted = types.to_vec();
            head.further = head.further.or(further);
        }
    }
}

/// A type as it is written: no space but after a comma and a semicolon.
fn spelled(words: &[&str]) -> String {
    let spaced = |word: &&str| match *word {
        "," | ";" => format!("{word} "),
        word => word.to_string(),
    };
    words.iter().map(spaced).collect()
}
