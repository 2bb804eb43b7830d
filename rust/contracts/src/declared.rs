//! Reads what an antt file declares, by its layout, which `rt fmt` keeps: a declaration begins where its block does, and
//! goes on in the lines that are set further in.

use crate::lex::{antt, bare, seen, uncommented, Read, Trouble, Word};

/// A declaration: its type as it is written, or all of it where it is a `record` or a `data`.
#[derive(Clone, Debug, Default, PartialEq, Eq)]
pub struct Declaration {
    pub name: String,
    pub line: usize,
    /// The heads of the modules that it stands in, whose parameters it has too.
    pub modules: Vec<String>,
    pub head: String,
    /// The lines that define it.
    pub body: String,
}

/// A name that a `use` brings in, with its module, or a module that it brings in under this name.
#[derive(Clone, Debug, PartialEq, Eq)]
pub struct Used {
    pub name: String,
    pub module: String,
    pub from: String,
}

#[derive(Clone, Debug, Default)]
pub struct Declared {
    pub uses: Vec<Used>,
    pub declarations: Vec<Declaration>,
}

impl Declared {
    /// The declarations of a name: two modules of a file may each have one.
    pub fn all<'a>(&'a self, name: &'a str) -> impl Iterator<Item = &'a Declaration> {
        self.declarations
            .iter()
            .filter(move |one| one.name == bare(name))
    }

    pub fn has(&self, name: &str) -> bool {
        self.all(name).next().is_some()
    }
}

/// The words that may stand before a declaration's name.
const MARKS: [&str; 5] = ["pub", "abbrev", "unfoldable", "record", "data"];

/// The words of lines that declare nothing that a statement could speak of.
const OTHERS: [&str; 6] = ["mod", "ruleset", "unfolding", "infix", "infixl", "infixr"];

pub fn declared(text: &str) -> Read<Declared> {
    seen(text)?;
    let text = uncommented(text);
    if let Some(word) = antt(&text).iter().find(|word| word.text.starts_with('"')) {
        return trouble(word.line, "has a quoted text");
    }
    let lines = text
        .lines()
        .enumerate()
        .map(|(at, line)| (at + 1, line.trim_end()));
    let lines: Vec<_> = lines.filter(|(_, line)| !line.is_empty()).collect();
    let mut found = Declared::default();
    read(&lines, &[], &mut found)?;
    Ok(found)
}

fn trouble<T>(line: usize, what: &str) -> Read<T> {
    Err(Trouble {
        line,
        what: what.to_string(),
    })
}

type Line<'a> = (usize, &'a str);

fn indent(line: &str) -> usize {
    line.len() - line.trim_start().len()
}

/// Reads the blocks of these lines: each begins at the indentation of the first.
fn read(lines: &[Line], modules: &[String], found: &mut Declared) -> Read<()> {
    let Some((_, first)) = lines.first() else {
        return Ok(());
    };
    let mut rest = lines;
    while let [start, after @ ..] = rest {
        if indent(start.1) != indent(first) {
            return trouble(start.0, "is laid out otherwise than `rt fmt` does");
        }
        let goes_on =
            |line: &&Line| indent(line.1) > indent(first) || line.1.trim_start().starts_with(')');
        let more = after.iter().take_while(goes_on);
        let len = 1 + more.count();
        block(&rest[..len], modules, found)?;
        rest = &rest[len..];
    }
    Ok(())
}

fn block(lines: &[Line], modules: &[String], found: &mut Declared) -> Read<()> {
    let (line, text) = (lines[0].0, joined(lines));
    let words = antt(&text);
    let marks = words.iter().take_while(|word| MARKS.contains(&word.text));
    let marks: Vec<&str> = marks.map(|word| word.text).collect();
    let after = &words[marks.len().min(words.len() - 1)..];
    let whole = marks.contains(&"record") || marks.contains(&"data");
    match after[0].text {
        "use" => found.uses.extend(uses(&after[1..])),
        "module" => return module(lines, modules, found),
        word if OTHERS.contains(&word) => {}
        name if whole || has_type(&after[1..]) => found.declarations.push(Declaration {
            name: bare(name).to_string(),
            line,
            modules: modules.to_vec(),
            head: text.clone(),
            body: String::new(),
        }),
        word => match found.declarations.last_mut().filter(|_| marks.is_empty()) {
            Some(last) if defines(last, &words) => {
                last.body.push_str(&text);
                last.body.push('\n');
            }
            _ => {
                let what = format!("has `{word}`, which begins nothing that is known here");
                return trouble(line, &what);
            }
        },
    }
    Ok(())
}

/// A module with parameters, whose declarations have them too.
fn module(lines: &[Line], modules: &[String], found: &mut Declared) -> Read<()> {
    let Some(head) = lines.iter().position(|line| line.1.ends_with(" where")) else {
        return trouble(
            lines[0].0,
            "has a module without `where` at the end of a line",
        );
    };
    let inner = [modules, &[joined(&lines[..=head])]].concat();
    read(&lines[head + 1..], &inner, found)
}

/// Whether a block is a line that defines the declaration before it: it begins with the name, or has a part of an operator.
fn defines(last: &Declaration, words: &[Word]) -> bool {
    let left: Vec<&str> = words
        .iter()
        .map(|word| word.text)
        .take_while(|word| *word != "=")
        .collect();
    let part = |word: &&str| !word.is_empty() && left.contains(word);
    let begins = left.first().is_some_and(|first| bare(first) == last.name);
    left.len() < words.len()
        && (begins || last.name.contains('◌') && last.name.split('◌').any(|word| part(&word)))
}

fn joined(lines: &[Line]) -> String {
    let lines: Vec<&str> = lines.iter().map(|line| line.1).collect();
    lines.join("\n")
}

/// Whether a type follows a name: a colon, perhaps after level parameters in braces.
pub fn has_type(after: &[Word]) -> bool {
    let levels = match after.first() {
        Some(word) if word.text == "{" => {
            after.iter().take_while(|word| word.text != "}").count() + 1
        }
        _ => 0,
    };
    after.get(levels).is_some_and(|word| word.text == ":")
}

/// The names of `M.{a, b as c}`, `M as x` or `M.a`.
fn uses(words: &[Word]) -> Vec<Used> {
    let words: Vec<&str> = words.iter().map(|word| bare(word.text)).collect();
    let used = |name: &str, module: &[&str], from: &str| Used {
        name: name.to_string(),
        module: module.concat().trim_end_matches('.').to_string(),
        from: from.to_string(),
    };
    if let Some(open) = words.iter().position(|word| *word == "{") {
        let items = words[open + 1..].split(|word| [",", "}"].contains(word));
        let named = items.filter_map(|item| match item {
            [] => None,
            [from, "as", name] => Some(used(name, &words[..open], from)),
            [.., name] => Some(used(name, &words[..open], name)),
        });
        return named.collect();
    }
    match &words[..] {
        [module @ .., "as", name] => vec![used(name, module, "")],
        [module @ .., name] => vec![used(name, &[module, &[*name]].concat(), "")],
        [] => Vec::new(),
    }
}

#[cfg(test)]
mod tests {
    use super::*;

    const TEXT: &str = "-- a file
use Rattle.std.specs.Prelude.{ℕ, ◌<◌ as ◌≺◌}
use Rattle.a.specs.B as b
pub mod Other

abbrev pub near : ℕ → ℕ
near zero = 1
near (suc n) =
    n

pub record Fits (n : ℕ) : Type 0 where
  -- pub hidden : n ≡ n
  pub short : n < 3

module _ (m : ℕ)
    (h : Fits m) where
  -- pub gone : ℕ
  module _ (k : ℕ) where
    pub law :
        near m ≡ k
    unfolding near
    law = refl

{- pub also-gone : ℕ -}
pub last {ℓ} : Type ℓ
last = ℕ
";

    #[test]
    fn declarations_are_read_with_the_modules_around_them() {
        let found = declared(TEXT).unwrap();
        let names: Vec<&str> = found
            .declarations
            .iter()
            .map(|one| one.name.as_str())
            .collect();
        assert_eq!(names, ["near", "Fits", "law", "last"]);
        let one = |name| found.all(name).next().unwrap();
        let near = one("near");
        assert_eq!(
            (near.line, near.head.as_str()),
            (6, "abbrev pub near : ℕ → ℕ")
        );
        assert_eq!(near.body, "near zero = 1\nnear (suc n) =\n    n\n");
        let fits = one("Fits");
        assert_eq!(
            fits.head,
            "pub record Fits (n : ℕ) : Type 0 where\n  pub short : n < 3"
        );
        let law = one("law");
        assert_eq!(
            law.modules,
            [
                "module _ (m : ℕ)\n    (h : Fits m) where",
                "  module _ (k : ℕ) where"
            ]
        );
        assert_eq!(law.head, "    pub law :\n        near m ≡ k");
        assert!(!found.has("gone") && !found.has("also-gone"));
    }

    #[test]
    fn uses_say_where_a_name_is_from() {
        let found = declared(TEXT).unwrap().uses;
        let found: Vec<_> = found
            .iter()
            .map(|u| (u.name.as_str(), u.module.as_str(), u.from.as_str()))
            .collect();
        let expected = [
            ("ℕ", "Rattle.std.specs.Prelude", "ℕ"),
            ("◌≺◌", "Rattle.std.specs.Prelude", "◌<◌"),
            ("b", "Rattle.a.specs.B", ""),
        ];
        assert_eq!(found, expected);
    }

    #[test]
    fn what_is_not_known_is_trouble() {
        for text in [
            "open A",
            "  a : B\nb : C",
            "a : String\na = \"--\"",
            "pub = 1",
            "axiom x : A",
            "module M",
            "a : B\na = c\nmutual\n  d : B\n  d = e",
            "a : B\nd = e",
            "a\u{a0}b : C",
            "mutual\n  a : B",
        ] {
            assert!(declared(text).is_err(), "{text}");
        }
    }
}
