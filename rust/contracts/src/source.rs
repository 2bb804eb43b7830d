//! Finds the public functions of a Rattle file, with their parameters and clauses, and the traits and impls with ghost members by which
//! contracts speak. The file is read item by item; what is no item of the forms below is a fault, and so is a head with anything in it
//! but what a function's head has here.

mod blocks;
mod kinds;

use std::collections::{HashMap, HashSet};
use std::mem;

use crate::fault::Fault;
use crate::lex::{antt, bare, Lexer, Read, Trouble, Word};
pub use blocks::{converts, only_shows};
use kinds::OF_STD;

/// How a value is passed: by itself, lent to be read, or lent to be changed.
#[derive(Clone, Copy, Debug, PartialEq, Eq)]
pub enum Passed {
    Value,
    Shared,
    Lent,
}

#[derive(Clone, Debug, PartialEq, Eq)]
pub struct Parameter {
    pub name: String,
    pub passed: Passed,
}

/// A function as its head states it. The names of its clauses are nobody's.
#[derive(Clone, Debug, Default)]
pub struct Function {
    pub file: String,
    pub line: usize,
    pub path: String,
    pub public: bool,
    /// The names that its clauses may say beside its parameters: its const parameters, and the members of its trait.
    pub names: Vec<String>,
    /// The types whose ghost members its clauses may say, as `T.width`.
    pub types: Vec<String>,
    pub parameters: Vec<Parameter>,
    pub result: Option<Passed>,
    pub requires: bool,
    pub ensures: Vec<String>,
    /// Of an impl of `From` or `TryFrom`, whose functions have no clause: what its `.._gives` says, or nothing.
    pub gives: Option<String>,
}

/// A ghost member: what a trait declares, or what an impl of it gives.
#[derive(Clone, Debug, PartialEq, Eq)]
pub struct Member {
    pub line: usize,
    pub name: String,
    pub text: String,
}

/// Which of the two a block is. The type that an impl is for is told by its path.
#[derive(Clone, Debug, PartialEq, Eq)]
pub enum Kind {
    Trait { public: bool },
    Impl { typed: String },
}

/// A trait, or an impl of one.
#[derive(Clone, Debug)]
pub struct Block {
    pub line: usize,
    pub path: String,
    pub module: String,
    pub kind: Kind,
    /// The trait's name, and its path as it is written there.
    pub of: String,
    pub written: String,
    pub members: Vec<Member>,
}

/// Of what a `Made` tells.
#[derive(Clone, Copy, Debug, PartialEq, Eq)]
pub enum Thing {
    Head,
    Type,
    Trait,
    Impl,
}

/// A public head, type or trait, or an impl: what it is made of, by the paths that are written there.
#[derive(Clone, Debug)]
pub struct Made {
    pub line: usize,
    pub path: String,
    pub module: String,
    pub thing: Thing,
    pub types: Vec<String>,
    /// The traits that bound a head's types, that stand above a trait, or that an impl is of.
    pub traits: Vec<String>,
}

/// A Rattle file: all its functions, and what it brings in for the clauses.
#[derive(Clone, Debug, Default)]
pub struct Source {
    pub file: String,
    pub functions: Vec<Function>,
    pub blocks: Vec<Block>,
    /// The fields of its structs, by their paths.
    pub fields: HashMap<String, Vec<String>>,
    /// The types that it declares, by their paths, and whether they are public.
    pub types: HashMap<String, bool>,
    /// What its `use` items bring in: by the path that a name has here, what it stands for.
    pub brought: HashMap<String, String>,
    pub made: Vec<Made>,
    pub imports: Imports,
    /// Its `ghost use` items as antt, each at its line.
    pub uses: String,
}

/// What the `ghost use` items of a file bring in: names, and modules of specs/ under a name.
#[derive(Clone, Debug, Default)]
pub struct Imports {
    pub names: HashSet<String>,
    pub modules: HashSet<String>,
}

impl Imports {
    pub fn contains(&self, name: &str) -> bool {
        self.names.contains(name)
    }
}

impl Function {
    /// All that the head says, with the words of its clauses.
    pub fn head(&self) -> String {
        let texts = self.ensures.iter().chain(&self.gives);
        let clauses: Vec<String> = texts.map(|text| words(text)).collect();
        let Function {
            public,
            names,
            types,
            parameters,
            result,
            requires,
            ..
        } = self;
        format!("{public} {names:?} {types:?} {parameters:?} {result:?} {requires} {clauses:?}")
    }
}

impl Block {
    /// All that its members say.
    pub fn head(&self) -> String {
        let said = |one: &Member| format!("{} {}", one.name, words(&one.text));
        let members: Vec<String> = self.members.iter().map(said).collect();
        format!("{:?} {members:?}", self.kind)
    }
}

/// The words of an antt text, whatever stands between them.
fn words(text: &str) -> String {
    let words: Vec<&str> = antt(text).iter().map(|word| word.text).collect();
    words.join(" ")
}

/// Reads a file whose module has this path, as `trb::event`.
pub fn source(file: &str, module: &str, text: &str) -> Result<Source, Fault> {
    read(file, module, text, false)
}

/// Reads a file as the compiler prints it, in which functions have no body.
pub fn print(file: &str, module: &str, text: &str) -> Result<Source, Fault> {
    read(file, module, text, true)
}

fn read(file: &str, module: &str, text: &str, bodiless: bool) -> Result<Source, Fault> {
    let read = || -> Read<Source> {
        let mut parser = Parser {
            file,
            lexer: Lexer::new(text)?,
            bodiless,
            module: module.to_string(),
            place: Place::File,
            ahead: None,
            words: Vec::new(),
            paths: Vec::new(),
            further: None,
            members: Vec::new(),
            hidden: HashSet::new(),
            heads: Vec::new(),
            homes: HashMap::new(),
            found: Source {
                file: file.to_string(),
                ..Source::default()
            },
        };
        parser.tactic_of_all()?;
        parser.items(module, Place::File)?;
        parser.settle()?;
        Ok(parser.found)
    };
    read().map_err(|trouble| Fault::new(file, trouble.line, module, trouble.what))
}

const UNKNOWN: &str = "which the reader of contracts does not know";

/// Words that begin or belong to an item. In a body, a constant or a type they are not known.
const OF_ITEMS: [&str; 15] = [
    "fn",
    "impl",
    "mod",
    "use",
    "ghost",
    "requires",
    "ensures",
    "extern",
    "unsafe",
    "trait",
    "static",
    "macro_rules",
    "where",
    "dyn",
    "async",
];

/// The traits of std that may be derived. What a derived function answers is std's word.
const DERIVED: [&str; 10] = [
    "Clone",
    "Copy",
    "Debug",
    "Default",
    "Drop",
    "Eq",
    "Hash",
    "Ord",
    "PartialEq",
    "PartialOrd",
];

/// Where items stand: `Of` is an impl of a trait, `Impl` of a type alone.
#[derive(Clone, Copy, PartialEq, Eq)]
enum Place {
    File,
    Module,
    Impl,
    Trait { public: bool },
    Of,
}

impl Place {
    /// Whether any item may stand there.
    fn is_free(self) -> bool {
        matches!(self, Place::File | Place::Module)
    }
}

struct Parser<'a> {
    file: &'a str,
    lexer: Lexer<'a>,
    /// Whether a function ends in `;` and has no body.
    bodiless: bool,
    module: String,
    place: Place,
    ahead: Option<Word<'a>>,
    /// The words so far.
    words: Vec<&'a str>,
    /// The paths of the types in what is read.
    paths: Vec<String>,
    /// The first word, in what is read, of a type that only what is private may have.
    further: Option<&'a str>,
    /// The ghost members so far of the trait or impl that is read.
    members: Vec<Member>,
    /// The paths of the structs and enums that are private.
    hidden: HashSet<String>,
    heads: Vec<Head<'a>>,
    /// Where each name that is brought in is from.
    homes: HashMap<String, String>,
    found: Source,
}

/// The types of a function and their bounds, as they are written in its module, and what only a private one may have.
struct Head<'a> {
    at: usize,
    module: String,
    types: Vec<String>,
    traits: Vec<String>,
    /// The types between which a conversion's impl converts.
    converted: Vec<String>,
    further: Option<&'a str>,
}

impl<'a> Parser<'a> {
    fn next(&mut self) -> Read<Option<Word<'a>>> {
        match self.ahead.take() {
            Some(word) => Ok(Some(word)),
            None => self.lexer.rattle(),
        }
    }

    fn word(&mut self) -> Read<&'a str> {
        let Some(word) = self.next()? else {
            return self.lexer.trouble("ends in the middle of an item");
        };
        self.words.push(word.text);
        Ok(word.text)
    }

    /// The next word, which is read again.
    fn peek(&mut self) -> Read<&'a str> {
        self.ahead = self.next()?;
        Ok(self.ahead.map_or("", |word| word.text))
    }

    fn expect(&mut self, wanted: &str) -> Read<()> {
        let found = self.word()?;
        if found == wanted {
            return Ok(());
        }
        self.lexer
            .trouble(format!("has `{found}` where `{wanted}` is expected"))
    }

    fn unknown<T>(&self, word: &str, place: &str) -> Read<T> {
        self.lexer
            .trouble(format!("has `{word}` {place}, {UNKNOWN}"))
    }

    fn name(&mut self) -> Read<&'a str> {
        let word = self.word()?;
        if word.starts_with(|c: char| c.is_ascii_alphabetic() || c == '_')
            && !word.contains(['\'', '"'])
        {
            return Ok(word);
        }
        self.unknown(word, "for a name")
    }

    /// Items up to the end of the file, or of the block that they stand in.
    fn items(&mut self, path: &str, place: Place) -> Read<()> {
        let around = mem::replace(&mut self.place, place);
        loop {
            match self.peek()? {
                "" if place == Place::File => break,
                "}" if place != Place::File => {
                    self.expect("}")?;
                    break;
                }
                _ => self.item(path)?,
            }
        }
        self.place = around;
        Ok(())
    }

    fn item(&mut self, path: &str) -> Read<()> {
        let exported = self.attribute()?;
        let public = self.visibility()?;
        let line = self.lexer.line();
        let (word, free) = (self.word()?, self.place.is_free());
        match word {
            "fn" if !exported => self.function(path, public, line),
            "extern" if exported && public && free => {
                self.all_of(&["\"C\"", "fn"])?;
                self.function(path, public, line)
            }
            "const" => self.skip(";", &[]),
            "ghost" if !public && !exported => self.ghost(),
            "type" if self.place == Place::Of => self.alias(path, public),
            word if !free || exported => self.unknown(word, "in place of a function"),
            "type" => self.alias(path, public),
            "use" if !public => self.uses(),
            "struct" => self.structure(path, public),
            "enum" => self.enumeration(path, public),
            "mod" => self.module(path),
            "trait" => self.declared_trait(path, public, line),
            "impl" if !public => self.implementation(path, line),
            word => self.unknown(word, "in place of an item"),
        }
    }

    /// `#![tactic(..)]`, which stands at the head of a file alone.
    fn tactic_of_all(&mut self) -> Read<()> {
        while self.lexer.begins("#!")? {
            self.all_of(&["#", "!", "[", "tactic"])?;
            self.skip("]", &[])?;
        }
        Ok(())
    }

    /// `#[unsafe(no_mangle)]`, which is told, and attributes that leave a contract as it stands: how values are laid out and copied,
    /// `tactic` for the search of proofs, `inline`, and what the compiler prints beside a constant or an impl.
    fn attribute(&mut self) -> Read<bool> {
        let mut exported = false;
        while self.peek()? == "#" {
            self.expect("#")?;
            self.expect("[")?;
            match self.word()? {
                "unsafe" => {
                    self.all_of(&["(", "no_mangle", ")", "]"])?;
                    exported = true;
                }
                "repr" => self.all_of(&["(", "C", ")", "]"])?,
                "derive" => self.derived()?,
                "tactic" | "inline" => self.skip("]", &[])?,
                "read_as" if self.bodiless => self.skip("]", &[])?,
                word => return self.unknown(word, "in an attribute"),
            }
        }
        Ok(exported)
    }

    fn all_of(&mut self, words: &[&str]) -> Read<()> {
        words.iter().try_for_each(|word| self.expect(word))
    }

    /// `(A, B)]`, of traits whose functions are std's.
    fn derived(&mut self) -> Read<()> {
        self.expect("(")?;
        loop {
            match self.word()? {
                ")" => return self.expect("]"),
                "," => {}
                word if DERIVED.contains(&word) => {}
                word => return self.unknown(word, "among what is derived"),
            }
        }
    }

    /// Whether `pub` stands here; `pub(crate)` is not public.
    fn visibility(&mut self) -> Read<bool> {
        if self.peek()? != "pub" {
            return Ok(false);
        }
        self.expect("pub")?;
        if self.peek()? != "(" {
            return Ok(true);
        }
        self.expect("(")?;
        self.expect("crate")?;
        self.expect(")")?;
        Ok(false)
    }

    fn module(&mut self, path: &str) -> Read<()> {
        let path = format!("{path}::{}", self.name()?);
        match self.word()? {
            ";" => Ok(()),
            "{" => {
                let around = mem::replace(&mut self.module, path.clone());
                self.items(&path, Place::Module)?;
                self.module = around;
                Ok(())
            }
            word => self.unknown(word, "after a module's name"),
        }
    }

    /// A `use`. Of std's names that the reader goes by, only std's own come in.
    fn uses(&mut self) -> Read<()> {
        let first = self.words.len();
        loop {
            match self.word()? {
                ";" => break,
                "{" | "}" | "," | "::" => {}
                word if word.starts_with(|c: char| c.is_ascii_alphabetic()) => {}
                word => return self.unknown(word, "in a `use`"),
            }
        }
        let words = &self.words[first..];
        let own = |at: &usize| words[0] != "std" || words[at - 1] == "as";
        let taken = |at: &usize| OF_STD.contains(&words[*at]) && own(at);
        if let Some(at) = (1..words.len()).find(taken) {
            return self.unknown(words[at], "in a `use` that is not of std");
        }
        for (name, from) in leaves(words) {
            let name = format!("{}::{name}", self.module);
            self.found.brought.insert(name, from);
        }
        Ok(())
    }

    /// `ghost use M.{a, b as c};`, or `ghost use Rattle.C.specs.M as m;` The names that it brings in are kept, and its text for whoever asks
    /// where they are from.
    fn ghost_use(&mut self) -> Read<()> {
        self.expect("use")?;
        let text = self.lexer.until_semicolon()?;
        let words: Vec<&str> = antt(text.text).iter().map(|word| bare(word.text)).collect();
        let open = words.iter().position(|word| *word == "{");
        match (&words[..], open) {
            (["Rattle", ".", _, ".", "specs", ".", _, "as", name], None) => {
                self.hold_to_one_place(name, words[..7].concat())?;
                self.found.imports.modules.insert(name.to_string());
            }
            ([.., "}"], Some(open)) => {
                let names = &words[open + 1..words.len() - 1];
                self.brought_in(&words[..open].concat(), names)?;
            }
            _ => {
                return self
                    .lexer
                    .trouble("has a `ghost use` that names nothing in braces")
            }
        }
        let before = self.found.uses.matches('\n').count() + 1;
        let lines = "\n".repeat(text.line.saturating_sub(before));
        self.found
            .uses
            .push_str(&format!("{lines}use {}\n", text.text.trim()));
        Ok(())
    }

    /// The names of `a, b as c`.
    fn brought_in(&mut self, module: &str, names: &[&str]) -> Read<()> {
        for item in names.split(|word| *word == ",") {
            let ([from @ name] | [from, "as", name]) = item else {
                return self
                    .lexer
                    .trouble("has a `ghost use` of a form that is not known here");
            };
            self.hold_to_one_place(name, format!("{module}{from}"))?;
            self.found.imports.names.insert(name.to_string());
        }
        Ok(())
    }

    /// A name is from one place, in whatever block it is brought in.
    fn hold_to_one_place(&mut self, name: &str, home: String) -> Read<()> {
        let known = self.homes.entry(name.to_string()).or_insert(home.clone());
        if *known == home {
            return Ok(());
        }
        self.lexer
            .trouble(format!("brings in `{name}` from two places"))
    }

    /// Passes all up to the word that ends what is here. Brackets are counted; the words of items, and those given, are
    /// not known in it.
    fn skip(&mut self, end: &str, refused: &[&str]) -> Read<()> {
        let mut open: Vec<&str> = Vec::new();
        loop {
            let word = self.word()?;
            if open.is_empty() && word == end {
                return Ok(());
            }
            match word {
                "(" => open.push(")"),
                "[" => open.push("]"),
                "{" => open.push("}"),
                ")" | "]" | "}" if open.pop() != Some(word) => {
                    return self
                        .lexer
                        .trouble(format!("has a `{word}` without counterpart"));
                }
                _ if OF_ITEMS.contains(&word) || refused.contains(&word) => {
                    return self.unknown(word, "here")
                }
                _ => {}
            }
        }
    }

    /// A function, from its name to the end of its body.
    fn function(&mut self, around: &str, public: bool, line: usize) -> Read<()> {
        let path = format!("{around}::{}", self.name()?);
        let mut function = Function {
            file: self.file.to_string(),
            line,
            path,
            public,
            ..Function::default()
        };
        self.of_block(&mut function)?;
        let mut traits = Vec::new();
        if self.peek()? == "<" {
            match function.public {
                true => traits = self.bounded(&mut function)?,
                false => self.angles()?,
            }
        }
        self.expect("(")?;
        function.parameters = self.parameters()?;
        if self.peek()? == "->" {
            self.expect("->")?;
            function.result = Some(self.kind()?);
        }
        let mut types = mem::take(&mut self.paths);
        types.retain(|path| !function.types.contains(path));
        if self.place == Place::Impl {
            // What `self` and `Self` are.
            types.extend(around.rsplit("::").next().map(str::to_string));
        }
        self.heads.push(Head {
            at: self.found.functions.len(),
            module: self.module.clone(),
            types,
            traits,
            converted: Vec::new(),
            further: self.further.take(),
        });
        self.clauses(&mut function)?;
        self.found.functions.push(function);
        Ok(())
    }

    /// Holds the heads of public functions to the forms that are known there. A conversion of a private type of its module, or to one, is
    /// private.
    fn settle(&mut self) -> Read<()> {
        for head in mem::take(&mut self.heads) {
            let function = &mut self.found.functions[head.at];
            let hidden = |path| self.hidden.contains(&format!("{}::{path}", head.module));
            if head.converted.iter().any(hidden) {
                function.public = false;
            }
            let line = function.line;
            match head.further {
                _ if !function.public => continue,
                Some(word) => {
                    let what = format!("has `{word}` in a public head, {UNKNOWN}");
                    return Err(Trouble { line, what });
                }
                None => self.found.made.push(Made {
                    line,
                    path: function.path.clone(),
                    module: head.module,
                    thing: Thing::Head,
                    types: [head.types, head.converted].concat(),
                    traits: head.traits,
                }),
            }
        }
        Ok(())
    }

    /// The clauses, each a keyword, perhaps a name, and braces, and then the body. A function of an impl of a trait has the clauses
    /// that the trait has, and a trait's may have no body.
    fn clauses(&mut self, function: &mut Function) -> Read<()> {
        let of_trait = matches!(self.place, Place::Trait { .. });
        loop {
            let word = self.word()?;
            match word {
                ";" if self.bodiless || of_trait => return Ok(()),
                "{" if !self.bodiless || of_trait => return self.skip("}", &[]),
                _ => {}
            }
            if !["requires", "ensures"].contains(&word) || self.place == Place::Of {
                return self.unknown(word, "in a function's head");
            }
            if self.peek()? != "{" {
                self.name()?;
            }
            self.expect("{")?;
            let text = self.lexer.clause()?.to_string();
            match word {
                "requires" => function.requires = true,
                _ => function.ensures.push(text),
            }
        }
    }

    fn parameters(&mut self) -> Read<Vec<Parameter>> {
        let mut found = Vec::new();
        loop {
            match self.peek()? {
                ")" => {
                    self.expect(")")?;
                    return Ok(found);
                }
                "," if !found.is_empty() => self.expect(",")?,
                _ => found.push(self.parameter()?),
            }
        }
    }

    /// `name: type`, or a form of `self`; `mut` may stand before a name.
    fn parameter(&mut self) -> Read<Parameter> {
        let passed = self.reference()?;
        if passed == Passed::Value && self.peek()? == "mut" {
            self.expect("mut")?;
        }
        let name = self.name()?.to_string();
        if name == "self" {
            return Ok(Parameter { name, passed });
        }
        if passed != Passed::Value {
            return self.unknown("&", "before a parameter's name");
        }
        self.expect(":")?;
        let passed = self.kind()?;
        Ok(Parameter { name, passed })
    }
}

/// What the words of a `use` bring in, each name with the path that it stands for.
fn leaves(words: &[&str]) -> Vec<(String, String)> {
    let (mut found, mut path, mut around) = (Vec::new(), Vec::new(), vec![0]);
    for word in words {
        let base = around[around.len() - 1];
        match *word {
            "::" => {}
            "{" => around.push(path.len()),
            "," | "}" | ";" => {
                found.extend(leaf(&path).filter(|_| path.len() > base));
                if *word == "}" && around.len() > 1 {
                    around.pop();
                }
                path.truncate(around[around.len() - 1]);
            }
            word => path.push(word),
        }
    }
    found
}

/// The name of a path that ends in one, in `self` or in `as` and another.
fn leaf(path: &[&str]) -> Option<(String, String)> {
    let (name, from) = match path {
        [from @ .., "as", name] => (name, from),
        _ => (path.last()?, path),
    };
    match (name, from) {
        (&"self", [from @ .., _]) => Some((from.last()?.to_string(), from.join("::"))),
        (name, [from @ .., "self"]) | (name, from) => Some((name.to_string(), from.join("::"))),
    }
}

#[cfg(test)]
mod tests {
    use super::*;

    fn found(text: &str) -> Source {
        match source("lib.rt", "crate", text) {
            Ok(found) => found,
            Err(fault) => panic!("{fault}"),
        }
    }

    fn paths(text: &str) -> Vec<String> {
        let functions = found(text).functions.into_iter();
        functions.filter(|f| f.public).map(|f| f.path).collect()
    }

    #[test]
    fn public_functions_are_found_wherever_they_stand() {
        let source = r#"
            // A library.
            #![tactic(auto)]
            pub mod code;
            ghost use a.b.C.{d, ◌≡◌};
            use crate::code::{a, b};
            #[derive(Clone, Copy)]
            pub struct Ring { pub place: u64 }
            struct Pair(u8, u8);
            pub type Raw = [u8; 16];
            const SIZES: [u8; 2] = [1, 2];
            pub fn free() {}
            fn private() { pub_call(b"}"); }
            fn generic<R: Read>(rt: &impl Print, x: (u8, R), y: Vec<Option<u8>>) -> io::Result<()> { Ok(()) }
            pub(crate) fn near() { text("}"); }
            #[tactic(auto, using(near_is_near))]
            #[unsafe(no_mangle)]
            pub extern "C" fn exported(x: u8) -> u8 { x }
            // pub fn in_a_comment() {}
            /* pub fn in_another() { /* } */ */
            impl Ring {
                pub const SIZE: u64 = 16;
                pub fn new() -> Self { Self { place: 0 } }
                fn hidden(self) {}
            }
            pub mod inner { pub fn deep() {} }
            /* " */ pub fn last() {} /* " */
        "#;
        let expected = [
            "crate::free",
            "crate::exported",
            "crate::Ring::new",
            "crate::inner::deep",
            "crate::last",
        ];
        assert_eq!(paths(source), expected);
        assert_eq!(found(source).functions.len(), 9);
    }

    /// A file with each form that today's Rattle has beside functions.
    const FORMS: &str = r#"
        #[derive(Clone, Copy, Debug, PartialEq, Eq, PartialOrd, Ord, Hash, Default)]
        pub enum Code { #[default] Low = 0, High = 0x1f, Full(Pair), Both { a: u8, pub b: [u8; 2] } }
        #[derive(Drop)]
        pub struct Window<'a> { start: u64, pub(crate) bytes: &'a [u8], last: Option<Pair> }
        struct Pair(u8, pub Option<u8>);
        pub struct End;
        struct Line<'a, T: A> { words: Vec<(u8, [T; 2])>, rest: &'a mut [u8], ghost full: { rest.now ≡ {} } }
        enum Parsed<F> { Known { fields: F }, Other }
        impl<F: Drop> Parsed<F> { fn of<const N: usize>(x: F, y: [&str; 2]) -> Result<[F; N], &'static u8> {} }
        impl<F: fmt::Display + Drop> fmt::Display for Parsed<F> { fn fmt() {} }
        impl From<&Line<'_, u8>> for Code { fn from(x: &Line<'_, u8>) -> Self { y } }
        pub type Read = Result<Option<[u8; 16]>, Code,>;
        impl Model for Window<'_> {
            ghost use a.B.{window};
            ghost Value = { Memory };
            ghost view = { λ w. window w.start w.bytes.now };
        }
        impl<'a> Window<'a> {
            ghost use a.B.{inside};
            pub fn inside(&self, address: u64) -> bool { address.min(1) == 'a' as u64 }
        }
        pub trait Wide: Sized + a::Other {
            const SIZE: u64;
            ghost width: { ℕ };
            fn wide(mem: &Window<'_>) -> Result<Self, Code> ensures { result ≡ width };
            #[inline]
            fn twice(self) -> u8 ensures { result ≡ 2 } { "fn".len() }
        }
        trait Near { fn near(self) requires { x }; }
        impl Wide for u16 {
            const SIZE: u64 = 2;
            ghost width = { 2 };
            fn wide(mem: &Window) -> Result<u16, Code> { Ok(2) }
        }
        impl From<[u8; 16]> for Code { ghost from_gives = { λ x r. r ≡ f x }; fn from(x: [u8; 16]) -> Self { y } }
        impl From<Line> for Code { fn from(x: Line) -> Self { y } }
        impl From<a::Line> for Code { fn from(x: a::Line) -> Self { y } }
        impl TryFrom<u8> for [u8; 16] { type Error = Code; fn try_from(x: u8) -> Read { y } }
        impl fmt::Display for Code {
            fn fmt<W: fmt::Write>(&self, f: &mut fmt::Formatter<W>) -> fmt::Result { write!(f, "{}", 1) }
        }
        pub fn put<'a, T: Wide + Copy, const N: usize>(out: &mut [T; N], x: ()) -> Option<Window<'a>> {}
        fn each(f: impl Fn(u8) -> u8, g: &impl FnMut()) -> u8 { (0..3).map(|x| f(x)).sum() }
    "#;

    #[test]
    fn forms_of_today_are_read() {
        let expected = [
            "crate::Window::inside",
            "crate::Wide::wide",
            "crate::Wide::twice",
            "crate::<Code as From<[u8; 16]>>::from",
            "crate::<Code as From<a::Line>>::from",
            "crate::<[u8; 16] as TryFrom<u8>>::try_from",
            "crate::put",
        ];
        assert_eq!(paths(FORMS), expected);
        let found = found(FORMS);
        assert_eq!(found.functions.len(), 15);
        let one = |path: &str| found.functions.iter().find(|one| one.path == path).unwrap();
        let put = one("crate::put");
        assert_eq!(
            (&put.names[..], &put.types[..]),
            (&["N".to_string()][..], &["T".to_string()][..])
        );
        let wide = one("crate::Wide::wide");
        assert_eq!(
            (&wide.names[0], &wide.types[0]),
            (&"width".to_string(), &"Self".to_string())
        );
        assert_eq!(wide.parameters[0].passed, Passed::Shared);
        let from = |of: &str| {
            one(&format!("crate::<Code as From<{of}>>::from"))
                .gives
                .clone()
        };
        assert_eq!(from("[u8; 16]").as_deref(), Some(" λ x r. r ≡ f x "));
        assert_eq!(from("Line").as_deref(), Some(""));
        let blocks: Vec<_> = found
            .blocks
            .iter()
            .map(|one| (one.path.as_str(), one.members.len()))
            .collect();
        let expected = [
            ("crate::<Parsed<F> as fmt::Display>", 0),
            ("crate::<Code as From<&Line<'_, u8>>>", 0),
            ("crate::<Window<'_> as Model>", 2),
            ("crate::Wide", 1),
            ("crate::Near", 0),
            ("crate::<u16 as Wide>", 1),
            ("crate::<Code as From<[u8; 16]>>", 1),
            ("crate::<Code as From<Line>>", 0),
            ("crate::<Code as From<a::Line>>", 0),
            ("crate::<[u8; 16] as TryFrom<u8>>", 0),
            ("crate::<Code as fmt::Display>", 0),
        ];
        assert_eq!(blocks, expected);
        assert_eq!(found.fields["crate::Window"], ["start", "bytes", "last"]);
        assert!(found.imports.contains("window") && found.imports.contains("inside"));
    }

    #[test]
    fn a_private_type_hides_what_it_is_converted_from() {
        for (text, public) in [
            ("struct P { a: u8 } impl From<P> for u8 { fn from(x: P) -> u8 { 1 } }", false),
            ("impl From<Option<P>> for u8 { fn from(x: Option<P>) -> u8 { 1 } } enum P {}", false),
            ("pub(crate) struct P { a: u8 } impl TryFrom<u8> for P { fn try_from(x: u8) -> R { 1 } }", false),
            ("pub struct P { a: u8 } impl From<P> for u8 { fn from(x: P) -> u8 { 1 } }", true),
            ("struct P { a: u8 } impl From<a::P> for u8 { fn from(x: a::P) -> u8 { 1 } }", true),
            ("mod a { struct P { a: u8 } } impl From<P> for u8 { fn from(x: P) -> u8 { 1 } }", true),
            ("struct P { a: u8 } impl From<[u8; P]> for u8 { fn from(x: [u8; P]) -> u8 { 1 } }", true),
            ("type P = u8; impl From<P> for Q { fn from(x: P) -> Q { 1 } }", true),
        ] {
            assert_eq!(!paths(text).is_empty(), public, "{text}");
        }
    }

    #[test]
    fn parameters_say_how_they_are_passed() {
        let text = "pub fn f<'a, 'b>(mem: &'a mut [u8], r: &mut Ring, n: &mut u64, s: &'b [u8], mut b: [u8; 16],) -> &'a [u8] {}
            impl R { pub fn g(&mut self) {} pub fn h(mut self, x: a::B) {} }";
        let passed: Vec<_> = found(text)
            .functions
            .into_iter()
            .flat_map(|f| f.parameters)
            .map(|p| (p.name, p.passed))
            .collect();
        let expected = [
            ("mem", Passed::Lent),
            ("r", Passed::Lent),
            ("n", Passed::Lent),
            ("s", Passed::Shared),
            ("b", Passed::Value),
            ("self", Passed::Lent),
            ("self", Passed::Value),
            ("x", Passed::Value),
        ];
        assert_eq!(
            passed,
            expected.map(|(name, passed)| (name.to_string(), passed))
        );
        assert_eq!(found(text).functions[0].result, Some(Passed::Shared));
    }

    #[test]
    fn clauses_are_read_with_inner_braces() {
        let text = "pub fn f(x: u8) -> [u8; 2]
            // a note {
            requires { x < 3 }
            ensures out /* { a } */ { result ≡ made (record { a = x; b = 1 }) }
            ensures same { x ≡ x }
        { [x, x] }";
        let functions = found(text).functions;
        let [f] = &functions[..] else {
            panic!("one function is expected")
        };
        assert!(f.requires && f.result == Some(Passed::Value));
        let expected = [" result ≡ made (record { a = x; b = 1 }) ", " x ≡ x "];
        assert_eq!(f.ensures, expected);
    }

    #[test]
    fn names_that_are_brought_in_are_known_at_their_lines() {
        let text = "// one\nghost use a.B.{c, d as e,\n «f_g»};\n\nghost use h.{◌≡◌};";
        let found = found(text);
        let mut names: Vec<_> = found.imports.names.into_iter().collect();
        names.sort();
        assert_eq!(names, ["c", "e", "f_g", "◌≡◌"]);
        assert_eq!(
            found.uses,
            "\nuse a.B.{c, d as e,\n «f_g»}\n\nuse h.{◌≡◌}\n"
        );
    }

    #[test]
    fn a_module_is_brought_in_under_a_name() {
        let found = found("ghost use Rattle.a.specs.B as b;");
        assert!(found.imports.modules.contains("b") && !found.imports.contains("b"));
        assert_eq!(found.uses, "use Rattle.a.specs.B as b\n");
    }

    #[test]
    fn what_is_not_known_is_a_fault() {
        for text in [
            "pub fn f() {",
            "pub fn f(",
            "impl R {\n",
            "}",
            "pub fn f()",
            "pub fn f();",
            "pub fn f() { ( }",
            "pub fn f<T>(x: T) {}",
            "pub fn f<T: Fn(u8)>(x: T) {}",
            "pub fn f<const N: usize = 1>() {}",
            "pub fn f(x: Cell<u8>) {}",
            "pub fn f(x: Option<&u8>) {}",
            "pub fn f(x: Option<Cell<u8>>) {}",
            "pub fn f(x: a::Option<u8>) {}",
            "pub fn f(x: Words<3>) {}",
            "pub fn f(x: Words<'a, u8>) {}",
            "pub fn f(x: impl Fn(u8) -> u8) {}",
            "pub fn f(x: (u8, u8)) {}",
            "pub fn f(x: [&u8; 2]) {}",
            "pub fn f(x: &impl Print) {}",
            "pub fn f() -> io::Result<()> {}",
            "fn f(x: Vec<u8, fn g() {}>) {}",
            "fn f(x: (u8, fn g() {})) {}",
            "pub fn f((x): u8) {}",
            "pub fn f<'a>() where 'a: 'a {}",
            "impl<T: A> B for Ring<T> {}",
            "impl B for (u8, u8) {}",
            "impl a::Ring {}",
            "impl A for &B {}",
            "impl A<u8> for B {}",
            "impl A for B as AB {}",
            "pub impl B {}",
            "impl A for B { pub fn f() {} }",
            "impl A for B { fn f() ensures { x } {} }",
            "impl A for B { fn f(); }",
            "impl A for B { ghost m: { x }; }",
            "impl A for B { ghost m = { x -- y }; }",
            "impl A for B { mod c {} }",
            "impl B { ghost m = { x }; }",
            "impl B { type C = u8; }",
            "trait T<A> {}",
            "trait T: A<u8> {}",
            "trait T { pub fn f(); }",
            "trait T { final fn f() {} }",
            "trait T { ghost m = { x }; }",
            "trait T { ghost m: { x } = { y }; }",
            "trait T { type A; }",
            "trait From { fn f(); }",
            "trait Option {}",
            "use a::From;",
            "use a::{b, TryFrom};",
            "use std::cell::Cell as Option;",
            "pub use a::b;",
            "extern { fn f(); }",
            "pub extern \"C\" fn f() {}",
            "#[unsafe(no_mangle)] fn f() {}",
            "#[no_mangle] pub extern \"C\" fn f() {}",
            "#[unsafe(export_name = \"g\")] pub extern \"C\" fn f() {}",
            "#[repr(transparent)] struct W(u8);",
            "#[derive(Other)] struct W(u8);",
            "#![allow(x)] fn f() {}",
            "fn f() {} #![tactic(auto)]",
            "#[read_as = \"0\"] const X: u8 = 1;",
            "fn f() ghost n: { ℕ } {}",
            "fn f() ensures* { x } {}",
            "fn f() ensures named twice { x } {}",
            "type M = &mut [u8];",
            "type M<T> = [T; 2];",
            "pub struct W { d: &mut [u8] }",
            "pub struct W<'a> { d: &'a mut [u8] }",
            "pub struct W<'a>(&'a mut [u8]);",
            "pub struct W<'a> { d: Option<&'a [u8]> }",
            "pub struct W { d: Cell<u8> }",
            "pub struct W<T> { d: T }",
            "pub struct W { d: u8, ghost e: { x } }",
            "struct W { d: u8, ghost e = { x } }",
            "struct W { d: u8, ghost e: { x -- y } }",
            "struct W { d: [u8; { fn f() {} }] }",
            "struct W { d: Vec<fn()> }",
            "pub enum W { A(&u8) }",
            "pub enum W<'a> { A(&'a u8) }",
            "pub enum W { A { d: &u8 } }",
            "enum W { A = f() }",
            "ghost use a.B;",
            "ghost use Rattle.a.specs.B;",
            "ghost use Rattle.a as b;",
            "ghost use Rattle.a.specs as b;",
            "ghost use Rattle.a.proofs.B as b;",
            "ghost use Rattle.a.specs.B as b; ghost use Rattle.a.specs.C as b;",
            "ghost use Rattle.a.specs.B as b; ghost use a.{b};",
            "static X: u8 = 1;",
            "pub(self) fn f() {}",
        ] {
            assert!(source("lib.rt", "crate", text).is_err(), "{text}");
        }
    }
}
