//! A small repository for the tests: one library, `demo`, with one theorem.

use crate::check::check;
use crate::fault::Fault;
use crate::theorems;
use crate::tree::{Crate, File, Tree};

pub const TABLE: &str = "
## Theorems that belong to no function

| Statement | File | Edit |
|---|---|---|
| All is well: `law` | crates/demo/proofs/Laws.antt | |
";

pub const LAWS: &str = "use Rattle.std.specs.Prelude.{◌≡◌}

pub law : (n : ℕ) → n ≡ n
law n = refl
";

/// The library with this source, and the pages. The table of theorems stands at the end of the second.
pub fn demo(source: &str, loose: &str, promises: &str) -> Tree {
    let file = |name: &str, text: &str| File {
        name: format!("crates/demo/{name}"),
        text: text.to_string(),
    };
    let mut tree = Tree {
        listed: "demo:\n".to_string(),
        crates: vec![Crate {
            name: "demo".to_string(),
            files: vec![file("src/lib.rt", source), file("proofs/Laws.antt", LAWS)],
        }],
        edits: Vec::new(),
        loose: loose.to_string(),
        promises: format!("{promises}\n{TABLE}"),
        theorems: String::new(),
    };
    tree.theorems = theorems::page(&tree);
    tree
}

pub fn lines(tree: &Tree) -> Vec<String> {
    let report = check(tree, None);
    report.faults.iter().map(Fault::to_string).collect()
}

/// Holds the check to one fault, with these words in it.
pub fn one_fault(found: &[String], words: &str) {
    assert_eq!(found.len(), 1, "{found:?}");
    assert!(found[0].contains(words), "{found:?}");
}
