//! Reads a repository: its list of crates, their files, and the three pages.

use std::fs;
use std::path::Path;

pub const CRATES: &str = "crates.txt";
pub const LOOSE: &str = "docs/LOOSE.md";
pub const PROMISES: &str = "docs/PROMISES.md";
pub const THEOREMS: &str = "docs/THEOREMS.md";

/// A file, by its name from the root of the repository.
#[derive(Clone, Debug, PartialEq, Eq)]
pub struct File {
    pub name: String,
    pub text: String,
}

/// A folder of crates/, with the Rattle and antt files of its src/, specs/ and proofs/.
#[derive(Clone, Debug)]
pub struct Crate {
    pub name: String,
    pub files: Vec<File>,
}

impl Crate {
    /// Whether the crate has this file, as `src/lib.rt`.
    pub fn has(&self, name: &str) -> bool {
        let name = format!("crates/{}/{name}", self.name);
        self.files.iter().any(|file| file.name == name)
    }

    /// The Rattle files, each with the path of its module.
    pub fn modules(&self) -> Vec<(&File, String)> {
        self.with_modules(&self.files)
    }

    /// The same of files that stand for the sources under their names.
    pub fn with_modules<'a>(&self, files: &'a [File]) -> Vec<(&'a File, String)> {
        let sources = format!("crates/{}/src/", self.name);
        let module = |file: &'a File| {
            let module = file.name.strip_prefix(&sources)?.strip_suffix(".rt")?;
            let path = match module {
                "lib" | "main" => self.name.clone(),
                _ => format!("{}::{}", self.name, module.replace('/', "::")),
            };
            Some((file, path))
        };
        files.iter().filter_map(module).collect()
    }
}

/// What the check reads, all of it.
#[derive(Clone, Debug, Default)]
pub struct Tree {
    pub listed: String,
    pub crates: Vec<Crate>,
    /// The must-fail edits, each by its crate and its name: `trb/one_fixed_answer`.
    pub edits: Vec<String>,
    pub loose: String,
    pub promises: String,
    pub theorems: String,
}

/// Reads the repository at a root. The error is one line that says what cannot be read.
pub fn read(root: &Path) -> Result<Tree, String> {
    let mut tree = Tree {
        listed: text(root, CRATES)?,
        crates: Vec::new(),
        edits: Vec::new(),
        loose: text(root, LOOSE)?,
        promises: text(root, PROMISES)?,
        theorems: text(root, THEOREMS)?,
    };
    for name in entries(root, "crates")? {
        let folder = format!("crates/{name}");
        if !root.join(&folder).is_dir() {
            continue;
        }
        let mut files = Vec::new();
        for part in ["proofs", "specs", "src"] {
            let part = format!("{folder}/{part}");
            if root.join(&part).is_dir() {
                collect(root, &part, &mut files)?;
            }
        }
        let edits = format!("{folder}/must-fail");
        if root.join(&edits).is_dir() {
            let files = entries(root, &edits)?;
            let labels = files.iter().filter_map(|file| file.strip_suffix(".edit"));
            tree.edits
                .extend(labels.map(|label| format!("{name}/{label}")));
        }
        tree.crates.push(Crate { name, files });
    }
    Ok(tree)
}

/// Adds the Rattle and antt files below a folder.
fn collect(root: &Path, folder: &str, files: &mut Vec<File>) -> Result<(), String> {
    for entry in entries(root, folder)? {
        let name = format!("{folder}/{entry}");
        if root.join(&name).is_dir() {
            collect(root, &name, files)?;
        } else if name.ends_with(".rt") || name.ends_with(".antt") {
            let text = text(root, &name)?;
            files.push(File { name, text });
        }
    }
    Ok(())
}

/// The names in a folder, in order.
fn entries(root: &Path, folder: &str) -> Result<Vec<String>, String> {
    let folder = root.join(folder);
    let failed = |error| format!("cannot read {}: {error}", folder.display());
    let mut names = Vec::new();
    for entry in fs::read_dir(&folder).map_err(failed)? {
        let name = entry.map_err(failed)?.file_name();
        names.push(name.to_string_lossy().into_owned());
    }
    names.sort();
    Ok(names)
}

fn text(root: &Path, name: &str) -> Result<String, String> {
    let file = root.join(name);
    fs::read_to_string(&file).map_err(|error| format!("cannot read {}: {error}", file.display()))
}
