//! What the compiler of the Rattle kit read of the crates. It is a second reader: a text that hides a function or a clause from one
//! hides it from one only. rust/lomvigast/archives leaves it in a file when it has had the crates proved,
//!
//! ```text
//! == crates/NAME/src/FILE.rt      a library's file as the compiler printed it: heads, and no bodies
//! ..
//! == crates/NAME                  a static library's functions, which it proved
//! fn NAME::MODULE::FUNCTION
//! ```

use std::collections::{BTreeMap, BTreeSet};

use crate::fault::Fault;
use crate::source::{print, Source};
use crate::tree::{Crate, File, CRATES};

/// What the compiler read of a crate.
#[derive(Clone, Debug, PartialEq, Eq)]
enum Seen {
    Printed(Vec<File>),
    Proved(BTreeSet<String>),
}

/// The same of all crates, by their names.
#[derive(Clone, Debug, Default)]
pub struct Heads(BTreeMap<String, Seen>);

/// Reads the file. The error is one line that says what cannot be read.
pub fn heads(text: &str) -> Result<Heads, String> {
    let mut found = Heads::default();
    let mut open: Option<&mut Seen> = None;
    for line in text.lines() {
        if let Some(place) = line.strip_prefix("== crates/") {
            let (name, file) = place.split_once('/').unwrap_or((place, ""));
            let new = match file {
                "" => Seen::Proved(BTreeSet::new()),
                _ => Seen::Printed(Vec::new()),
            };
            let seen = found.0.entry(name.to_string()).or_insert(new);
            if let Seen::Printed(files) = seen {
                let name = format!("crates/{place}");
                let text = String::new();
                files.push(File { name, text });
            }
            open = Some(seen);
            continue;
        }
        match (&mut open, line.strip_prefix("fn ")) {
            (Some(Seen::Printed(files)), _) => {
                let last = files.last_mut().ok_or("has a line of no file")?;
                last.text.push_str(line);
                last.text.push('\n');
            }
            (Some(Seen::Proved(functions)), Some(path)) => {
                functions.insert(path.to_string());
            }
            _ => return Err(format!("has `{line}`, which belongs to no crate")),
        }
    }
    Ok(found)
}

impl Heads {
    pub fn count(&self) -> usize {
        self.0.len()
    }

    /// Where the compiler read something else than is read here, or nothing where there are functions.
    pub fn faults(&self, crates: &[Crate], sources: &[Source]) -> Vec<Fault> {
        let mut found = Vec::new();
        for one in crates.iter().filter(|one| one.has("src/lib.rt")) {
            let folder = format!("crates/{}/", one.name);
            let own = sources
                .iter()
                .filter(|source| source.file.starts_with(&folder));
            let own: Vec<Said> = own.flat_map(said).collect();
            match self.0.get(&one.name) {
                Some(Seen::Printed(files)) => found.extend(printed(one, files, &own)),
                Some(Seen::Proved(functions)) => found.extend(proved(functions, &own)),
                None => {
                    let what = "is not among what the compiler read";
                    found.extend(own.iter().map(|one| one.fault(what)));
                }
            }
        }
        let lost = self
            .0
            .keys()
            .filter(|name| !crates.iter().any(|one| one.name == **name));
        let what = "was read by the compiler, and is no crate";
        found.extend(lost.map(|name| Fault::new(CRATES, 1, name, what)));
        found
    }
}

/// A function, or a trait or an impl of one with its members, and all that is said of it.
struct Said {
    file: String,
    line: usize,
    path: String,
    head: String,
}

impl Said {
    fn fault(&self, what: &str) -> Fault {
        Fault::new(&self.file, self.line, &self.path, what)
    }
}

fn said(source: &Source) -> Vec<Said> {
    let said = |line: usize, path: &str, head: String| Said {
        file: source.file.clone(),
        line,
        path: path.to_string(),
        head,
    };
    let functions = source.functions.iter();
    let functions = functions.map(|one| said(one.line, &one.path, one.head()));
    let blocks = source.blocks.iter();
    let blocks = blocks.map(|one| said(one.line, &one.path, one.head()));
    functions.chain(blocks).collect()
}

/// What is not as the compiler printed it.
fn printed(one: &Crate, files: &[File], own: &[Said]) -> Vec<Fault> {
    let (mut printed, mut found) = (BTreeMap::new(), Vec::new());
    for (file, module) in one.with_modules(files) {
        match print(&file.name, &module, &file.text) {
            Ok(read) => printed.extend(said(&read).into_iter().map(|one| (one.path.clone(), one))),
            Err(trouble) => found.push(trouble),
        }
    }
    let what = "is not as the compiler read it";
    for one in own {
        if printed.remove(&one.path).map(|seen| seen.head) != Some(one.head.clone()) {
            found.push(one.fault(what));
        }
    }
    found.extend(printed.values().map(|hidden| hidden.fault(what)));
    found
}

/// Functions that the compiler proved and that are not read here, or the other way about. Of a static library no trait and no impl of one
/// is known.
fn proved(functions: &BTreeSet<String>, own: &[Said]) -> Vec<Fault> {
    let what = "is not among what the compiler proved";
    let unproved = own.iter().filter(|one| !functions.contains(&one.path));
    let hidden = functions
        .iter()
        .filter(|path| !own.iter().any(|one| one.path == **path));
    let what_hidden = "was proved by the compiler, and is not read here";
    let hidden = hidden.map(|path| Fault::new(CRATES, 1, path, what_hidden));
    unproved.map(|one| one.fault(what)).chain(hidden).collect()
}

#[cfg(test)]
mod tests {
    use super::*;

    #[test]
    fn files_and_functions_are_told_apart() {
        let text = "== crates/a/src/lib.rt\npub mod b ;\n\n== crates/a/src/b.rt\n== crates/a_c\nfn a_c::b::f\n";
        let found = heads(text).unwrap();
        assert_eq!(found.count(), 2);
        let file = |name: &str, text: &str| File {
            name: name.to_string(),
            text: text.to_string(),
        };
        let printed = vec![
            file("crates/a/src/lib.rt", "pub mod b ;\n\n"),
            file("crates/a/src/b.rt", ""),
        ];
        assert_eq!(found.0["a"], Seen::Printed(printed));
        let proved = BTreeSet::from(["a_c::b::f".to_string()]);
        assert_eq!(found.0["a_c"], Seen::Proved(proved));
        for text in ["pub mod b ;\n", "== crates/a\npub mod b ;\n"] {
            assert!(heads(text).is_err(), "{text}");
        }
    }
}
