//! A check of the gate: reads the contracts of a repository's Rattle crates.
//!
//! `contracts ROOT` holds every `pub fn` of every library to these rules, prints a line for each fault and then a line
//! that counts, and exits with 0 if there is no fault, 1 if there are some, and 2 if it could not read the repository.
//!
//! 1. It has no `requires`.
//! 2. Its `ensures` clauses give its result, and each `&mut` parameter at exit, by an equation (src/clause.rs has the
//!    form). A public trait's functions are public, and their clauses stand in the trait. The function of an impl of `From` or
//!    `TryFrom` is public too, and the ghost member `from_gives` or `try_from_gives` is its equation. A file, an item, a head, a
//!    clause or a ghost member of a form that is not known here is a fault, and so is a private type or trait in what is public.
//! 3. Or docs/LOOSE.md lists it with a reason; it has an `ensures` all the same, or the reason says "no ensures".
//! 4. docs/PROMISES.md names it, as `trb::event::EventTrb::parse`, `guest::FromWindow::read` of a trait and
//!    `guest::<Dwords as From<[u8; 16]>>::from` of an impl, and neither page names a function that is not there.
//! 5. The symbols of contracts mean what the library says.
//! 6. The theorems that docs/PROMISES.md names are declared, and docs/THEOREMS.md has their statements.
//! 7. docs/PROMISES.md names every must-fail edit, and none that is not there.
//! 8. The functions of a crate NAME_c beside a crate NAME, which are its exports, have the heads of NAME's.
//! 9. With `contracts ROOT HEADS`, the file of that name that rust/lomvigast/archives leaves beside archives of these sources: the heads
//!    of all functions of a library, its traits and its impls of traits are those that the compiler read, and a static library has
//!    those functions that it proved.
//!
//! `contracts --theorems ROOT` prints docs/THEOREMS.md as the files have it.

mod check;
mod clause;
mod declared;
#[cfg(test)]
mod demo;
mod edits;
mod fault;
#[cfg(test)]
mod forms;
mod heads;
mod lex;
mod pages;
mod reach;
mod rules;
mod source;
mod symbols;
mod theorems;
mod tree;
#[cfg(test)]
mod tricks;

use std::env;
use std::fs;
use std::path::Path;
use std::process::ExitCode;

const MISUSE: u8 = 2;
const USAGE: &str = "name the root of the repository, as in: contracts ROOT, contracts ROOT HEADS or contracts --theorems ROOT";

fn main() -> ExitCode {
    let words: Vec<_> = env::args_os().skip(1).collect();
    let done = match &words[..] {
        [option, root] if option == "--theorems" => written(Path::new(root)),
        [root] => checked(Path::new(root), None),
        [root, heads] => checked(Path::new(root), Some(Path::new(heads))),
        _ => Err(USAGE.to_string()),
    };
    done.unwrap_or_else(|what| {
        eprintln!("contracts: {what}");
        ExitCode::from(MISUSE)
    })
}

fn checked(root: &Path, heads: Option<&Path>) -> Result<ExitCode, String> {
    let tree = tree::read(root)?;
    let heads = heads.map(seen).transpose()?;
    let report = check::check(&tree, heads.as_ref());
    print!("{report}");
    Ok(ExitCode::from(u8::from(!report.faults.is_empty())))
}

fn seen(file: &Path) -> Result<heads::Heads, String> {
    let told = |what: String| format!("{} {what}", file.display());
    let text =
        fs::read_to_string(file).map_err(|error| told(format!("cannot be read: {error}")))?;
    heads::heads(&text).map_err(told)
}

fn written(root: &Path) -> Result<ExitCode, String> {
    print!("{}", theorems::page(&tree::read(root)?));
    Ok(ExitCode::SUCCESS)
}
