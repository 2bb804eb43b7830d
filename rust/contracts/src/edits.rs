//! Holds the must-fail edits and docs/PROMISES.md to each other: what the page names is there, and what is there is named.

use std::collections::HashSet;

use crate::fault::Fault;
use crate::tree::{Tree, PROMISES};

/// An edit by its crate and its name, as `trb/one_fixed_answer`.
pub fn faults(tree: &Tree) -> Vec<Fault> {
    let edits: HashSet<&str> = tree.edits.iter().map(String::as_str).collect();
    let mut found = Vec::new();
    for (at, line) in tree.promises.lines().enumerate() {
        let named = of_row(line).into_iter().chain(of_words(tree, line));
        let lost = named.filter(|edit| !edits.contains(edit.as_str()));
        found.extend(lost.map(|edit| Fault::new(PROMISES, at + 1, &edit, "is no must-fail edit")));
    }
    let words: HashSet<&str> = tree.promises.split(|c| !named(c) || c == '/').collect();
    for edit in &tree.edits {
        let (name, label) = edit.split_once('/').unwrap_or_default();
        if !words.contains(label) {
            let file = format!("crates/{name}/must-fail/{label}.edit");
            let what = format!("is not named in {PROMISES}");
            found.push(Fault::new(&file, 1, edit, what));
        }
    }
    found
}

fn named(c: char) -> bool {
    c.is_ascii_lowercase() || c.is_ascii_digit() || c == '_' || c == '/'
}

/// The edits in the last cell of a function's row, which are of the function's crate.
fn of_row(line: &str) -> Vec<String> {
    let cells: Vec<&str> = line.split('|').map(str::trim).collect();
    let ["", function, _, _, edits, ""] = cells[..] else {
        return Vec::new();
    };
    let Some((name, _)) = function
        .strip_prefix('`')
        .and_then(|path| path.split_once("::"))
    else {
        return Vec::new();
    };
    let labels = edits
        .split(',')
        .map(str::trim)
        .filter(|label| !label.is_empty());
    labels.map(|label| format!("{name}/{label}")).collect()
}

/// Words as `trb/one_fixed_answer`, anywhere.
fn of_words(tree: &Tree, line: &str) -> Vec<String> {
    let edit = |word: &&str| match word.split('/').collect::<Vec<_>>()[..] {
        [name, label] => !label.is_empty() && tree.crates.iter().any(|one| one.name == name),
        _ => false,
    };
    let words = line.split(|c| !named(c));
    words.filter(edit).map(str::to_string).collect()
}

#[cfg(test)]
mod tests {
    use crate::demo::{demo, lines, one_fault};

    const PAGE: &str =
        "| `demo::f` | x | y | moved, lost |\n\nSee demo/moved, crates/demo/src and other/gone.";
    const GOOD: &str = "pub fn f() {}";

    #[test]
    fn the_page_and_the_edits_agree() {
        let mut tree = demo(GOOD, "", PAGE);
        tree.edits = vec!["demo/moved".to_string(), "demo/lost".to_string()];
        assert_eq!(lines(&tree), [""; 0]);
        tree.edits.push("demo/unnamed".to_string());
        let what =
            "crates/demo/must-fail/unnamed.edit:1: demo/unnamed: is not named in docs/PROMISES.md";
        one_fault(&lines(&tree), what);
        tree.edits = vec!["demo/moved".to_string()];
        one_fault(
            &lines(&tree),
            "docs/PROMISES.md:1: demo/lost: is no must-fail edit",
        );
        tree.edits = vec!["demo/lost".to_string()];
        assert_eq!(lines(&tree).len(), 2);
    }
}
