//! Sees to it that the symbols of the contracts mean what the library says: no file defines one of them anew, takes
//! one from another place, or gives its name to something else. Other names are the library's or of specs/.

use crate::declared::has_type;
use crate::fault::Fault;
use crate::lex::{antt, bare, Word};

/// The module that the symbols are taken from: the library's names for clauses and for specs/.
const PRELUDE: &str = "Rattle.std.specs.Prelude";

/// The symbols. What stands in a clause beside these is a name of the library or of specs/.
const SYMBOLS: [&str; 43] = [
    "◌≡◌",
    "◌≢◌",
    "◌<◌",
    "◌≤◌",
    "◌+◌",
    "◌*◌",
    "◌-◌",
    "◌/◌",
    "◌%◌",
    "◌^◌",
    "◌==◌",
    "◌&&◌",
    "◌||◌",
    "◌⊎◌",
    "◌↔◌",
    "◌∷◌",
    "[]",
    "◌++◌",
    "length",
    "min",
    "true",
    "false",
    "not",
    "eqb",
    "ltb",
    "nat_le",
    "nat_lt",
    "cond",
    "slice_index",
    "slice_set",
    "get_or",
    "replicate",
    "ℕ",
    "zero",
    "suc",
    "Bool",
    "List",
    "Option",
    "Some",
    "None",
    "Result",
    "Ok",
    "Err",
];

/// The language's own, which is taken from nowhere.
const OWN: &str = "◌×◌";

/// The first names of the library's modules, and of those that it is made of. Another thing of such a name would stand in for them.
const LIBRARIES: [&str; 7] = ["Rattle", "std", "core", "mathlib", "Prim", "lib", "native"];

/// The marks that may stand before the name of a definition.
const MARKS: [&str; 7] = [
    "pub",
    "abbrev",
    "pattern",
    "unfoldable",
    "axiom",
    "data",
    "record",
];

/// Where a symbol is taken from; none of any other name.
fn home(name: &str) -> Option<&'static str> {
    match bare(name) {
        OWN => Some(""),
        name => SYMBOLS.contains(&name).then_some(PRELUDE),
    }
}

/// Whether a name is a symbol's, or the library's own.
pub fn is_held(name: &str) -> bool {
    home(name).is_some() || LIBRARIES.contains(&bare(name))
}

/// The faults of a file of `specs/`, or of what a Rattle file brings in.
pub fn faults(file: &str, text: &str) -> Vec<Fault> {
    let of_specs = file.ends_with(".antt");
    let words = antt(text);
    let mut found = renamings(file, &words);
    for used in uses(&words) {
        found.extend(used.fault(file, of_specs));
    }
    if of_specs {
        found.extend(definitions(file, &words));
        found.extend(whole_paths(file, &words));
    }
    found
}

/// Definitions of a symbol: a line that begins with its name, and says its type.
fn definitions(file: &str, words: &[Word]) -> Vec<Fault> {
    let mut found = Vec::new();
    for (at, first) in words.iter().enumerate() {
        if at > 0 && words[at - 1].line == first.line {
            continue;
        }
        let line = &words[at..];
        let marks = line.iter().take_while(|word| MARKS.contains(&word.text));
        let marks: Vec<&str> = marks.map(|word| word.text).collect();
        let typed = marks.contains(&"data") || marks.contains(&"record");
        let Some(name) = line.get(marks.len()) else {
            continue;
        };
        if home(name.text).is_some() && (typed || has_type(&line[marks.len() + 1..])) {
            let what = "is defined here, but a contract's symbol means what the library says";
            found.push(Fault::new(file, name.line, name.text, what));
        }
    }
    found
}

/// Paths into proofs/ in a definition itself: a name may be written by its module's whole path, with no `use`.
fn whole_paths(file: &str, words: &[Word]) -> Vec<Fault> {
    let texts: Vec<&str> = words.iter().map(|word| bare(word.text)).collect();
    let path = |at: &usize| matches!(texts[*at..], ["Rattle", ".", _, ".", "proofs", ..]);
    let used = |at: &usize| *at > 0 && texts[*at - 1] == "use";
    let found = (0..texts.len()).filter(|at| path(at) && !used(at));
    let told = found.map(|at| {
        let what = format!("names a file of proofs/, and {MADE_OF}");
        Fault::new(file, words[at].line, &texts[at..at + 5].concat(), what)
    });
    told.collect()
}

const MADE_OF: &str = "a contract is made of specs/";

/// Renamings of something to a symbol or to a library, in any line that can rename.
fn renamings(file: &str, words: &[Word]) -> Vec<Fault> {
    let mut found = Vec::new();
    for (at, by) in words.iter().enumerate() {
        let Some(to) = words.get(at + 1) else { break };
        if ["as", "mod"].contains(&by.text) && LIBRARIES.contains(&bare(to.text)) {
            found.push(Fault::new(file, to.line, to.text, "hides the library"));
        }
        if by.text == "as" && home(to.text).is_some() {
            let what = "is given to another name here, by `as`";
            found.push(Fault::new(file, to.line, to.text, what));
        }
    }
    found
}

/// A name that a `use` names, in its module.
struct Used<'a> {
    module: Vec<&'a str>,
    name: &'a str,
    line: usize,
}

impl Used<'_> {
    fn fault(&self, file: &str, of_specs: bool) -> Option<Fault> {
        let module = self.module.join(".");
        let module = module.strip_prefix("package.").unwrap_or(&module);
        let what = match home(self.name) {
            Some(home) if home == module => return None,
            Some("") => format!("is taken from {module}, but is the language's own"),
            Some(home) => format!("is taken from {module}, and not from {home}"),
            None if LIBRARIES.contains(&bare(self.name)) && !module.is_empty() => {
                "hides the library".to_string()
            }
            None if of_proofs(module) => format!("is taken from {module}, and {MADE_OF}"),
            None if self.name == "*" => "stands for names that are not written here".to_string(),
            None if self.name.contains('◌') && !of_specs => {
                "is an operator that the reader of contracts does not know".to_string()
            }
            None => return None,
        };
        Some(Fault::new(file, self.line, self.name, what))
    }
}

/// Whether a module is of a crate's proofs, which no reviewer of contracts reads: `Rattle.a.proofs.B`, or below another name that a
/// `use` has brought in.
fn of_proofs(module: &str) -> bool {
    let parts: Vec<&str> = module.split('.').map(bare).collect();
    match parts[..] {
        ["Rattle", _, part, ..] => part == "proofs",
        _ => parts.contains(&"proofs"),
    }
}

/// The names of every `use`, also of a `ghost use`: `use M.N` or `use M.{a, b as c, N.d}`.
fn uses<'a>(words: &[Word<'a>]) -> Vec<Used<'a>> {
    let mut found = Vec::new();
    for (at, _) in words.iter().enumerate().filter(|(_, w)| w.text == "use") {
        let (module, rest) = path(&words[at + 1..]);
        if rest.first().is_some_and(|word| word.text == "{") {
            let group = &rest[1..];
            let len = group.iter().take_while(|word| word.text != "}").count();
            for item in group[..len].split(|word| word.text == ",") {
                let (inner, _) = path(item);
                found.extend(used(&[&module[..], &inner[..]].concat()));
            }
        } else {
            found.extend(used(&module));
        }
    }
    found
}

fn used<'a>(path: &[Word<'a>]) -> Option<Used<'a>> {
    let (name, module) = path.split_last()?;
    Some(Used {
        module: module.iter().map(|word| word.text).collect(),
        name: name.text,
        line: name.line,
    })
}

/// The names of the path at the start of these words, and what follows it: a group in braces, or another word.
fn path<'a, 'w>(words: &'w [Word<'a>]) -> (Vec<Word<'a>>, &'w [Word<'a>]) {
    let mut parts = Vec::new();
    let mut rest = words;
    while let [part, after @ ..] = rest {
        if part.text == "{" {
            break;
        }
        parts.push(*part);
        rest = after;
        match rest {
            [dot, after @ ..] if dot.text == "." => rest = after,
            _ => break,
        }
    }
    (parts, rest)
}

#[cfg(test)]
mod tests {
    use super::*;

    fn lines(file: &str, text: &str) -> Vec<String> {
        let found = faults(file, text);
        found.iter().map(Fault::to_string).collect()
    }

    #[test]
    fn the_library_s_own_names_pass() {
        let source = "ghost use Rattle.std.specs.Prelude.{◌≡◌};
            ghost use Rattle.std.specs.Prelude.{[], ℕ, ◌+◌, ◌*◌, ◌/◌, ◌%◌, ◌^◌, ◌<◌, ◌≤◌, length, take, slice_index};
            ghost use Rattle.io.specs.Digits.{glyph as digits_glyph, max_len};
            use crate::code;
            pub fn f(length: u32, now: u8) -> u64 { length as u64 }";
        assert_eq!(lines("lib.rt", source), [""; 0]);
        let specs = "-- a list, and its length : as one
            use Rattle.std.specs.Prelude.{ℕ, ◌-◌}
            use package.Rattle.std.specs.Prelude.{length}
            use Rattle.std.specs.{Prelude.◌≡◌, Prelude.List}
            use lib.Dec
            use Rattle.a.specs.proofs.{near, ◌⊕◌}
            abbrev pub length_of : List ℕ → ℕ
            length_of xs =
                length xs
            {- ◌≡◌ : old -}";
        assert_eq!(lines("A.antt", specs), [""; 0]);
    }

    #[test]
    fn a_symbol_defined_anew_is_a_fault() {
        for line in [
            "◌≡◌ : ℕ → ℕ → Type 0",
            "abbrev pub ◌≡◌ : ℕ → ℕ → Type 0",
            "unfoldable pub ◌<◌ {ℓ} : {A : Type ℓ} → A → A → Type 0",
            "pub data ◌≤◌ (a : ℕ) : ℕ → Type 0 where",
            "  length : List ℕ → ℕ",
            "pub slice_set : ℕ",
            "pub «true» : ℕ",
            "abbrev pub Ok : ℕ → ℕ",
            "◌×◌ : Type 0 → Type 0 → Type 0",
        ] {
            let text = format!("use Rattle.std.specs.Prelude.{{ℕ}}\n{line}\n");
            let found = lines("A.antt", &text);
            assert_eq!(found.len(), 1, "{line}");
            assert!(found[0].starts_with("A.antt:2: ") && found[0].contains("is defined here"));
        }
    }

    #[test]
    fn a_symbol_from_elsewhere_is_a_fault() {
        let found = lines("lib.rt", "ghost use Rattle.a.specs.Eq.{◌≡◌, fine};");
        let what =
            "lib.rt:1: ◌≡◌: is taken from Rattle.a.specs.Eq, and not from Rattle.std.specs.Prelude";
        assert_eq!(found, [what]);
        for text in [
            "use mathlib.Core.Nat.{◌+◌}",
            "use mathlib.{Core.Nat.◌<◌}",
            "pub use lib.Seq.{take, length}",
            "ghost use a.B.{◌×◌};",
            "use Rattle.a.proofs.B.{near}",
            "use Rattle.a.proofs.B as near",
            "use Rattle.{a.proofs.B.near}",
            "use Rattle.«a».«proofs».B.{near}",
            "use a.proofs.B.{near}",
            "near = Rattle.a.proofs.B.near",
            "ghost use a.B.{true};",
            "use a.B.*",
            "use a.B.{*}",
        ] {
            assert_eq!(lines("A.antt", text).len(), 1, "{text}");
        }
    }

    #[test]
    fn another_thing_under_a_symbol_s_name_is_a_fault() {
        for text in [
            "ghost use a.B.{foo as ◌≡◌};",
            "use Rattle.std.specs.Prelude.{◌≤◌ as ◌<◌}",
            "open o use {below as ◌<◌}",
            "use a.B as Rattle",
            "use a.B.lib",
            "mod Prim",
            "pub mod std",
        ] {
            assert_eq!(lines("A.antt", text).len(), 1, "{text}");
        }
    }
}
