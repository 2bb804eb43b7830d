//! A fault: what is wrong, and where.

use std::fmt;

/// One thing that is wrong. `path` is the function, the name or the crate that it is about.
#[derive(Clone, Debug, PartialEq, Eq, PartialOrd, Ord)]
pub struct Fault {
    pub file: String,
    pub line: usize,
    pub path: String,
    pub what: String,
}

impl Fault {
    pub fn new(file: &str, line: usize, path: &str, what: impl Into<String>) -> Self {
        Fault {
            file: file.to_string(),
            line,
            path: path.to_string(),
            what: what.into(),
        }
    }
}

impl fmt::Display for Fault {
    fn fmt(&self, f: &mut fmt::Formatter<'_>) -> fmt::Result {
        let Fault {
            file,
            line,
            path,
            what,
        } = self;
        write!(f, "{file}:{line}: {path}: {what}")
    }
}
