//! Reads the two pages that speak of the public functions: docs/LOOSE.md and docs/PROMISES.md.

use std::collections::HashSet;

/// An item of the list in docs/LOOSE.md.
#[derive(Debug, PartialEq, Eq)]
pub struct Item {
    pub line: usize,
    /// The path that the item begins with, in backticks.
    pub path: Option<String>,
    /// What follows the path and `: `, or nothing.
    pub reason: String,
    /// Every word that stands in backticks.
    pub named: Vec<String>,
}

impl Item {
    /// Whether the reason says outright that the function has no `ensures`.
    pub fn says_no_ensures(&self) -> bool {
        self.reason.to_lowercase().contains("no ensures")
    }
}

/// The list items of docs/LOOSE.md. An item begins with `- `, and goes on in the indented lines after it.
pub fn loose(page: &str) -> Vec<Item> {
    let mut found: Vec<(usize, String)> = Vec::new();
    let mut open = false;
    for (at, line) in page.lines().enumerate() {
        if let Some(item) = line.strip_prefix("- ") {
            found.push((at + 1, item.trim().to_string()));
            open = true;
        } else if !line.starts_with([' ', '\t']) || line.trim().is_empty() {
            open = false;
        } else if let Some((_, item)) = found.last_mut().filter(|_| open) {
            *item = format!("{item} {}", line.trim());
        }
    }
    found
        .into_iter()
        .map(|(line, text)| item(line, &text))
        .collect()
}

fn item(line: usize, text: &str) -> Item {
    let led = text.strip_prefix('`').and_then(|rest| rest.split_once('`'));
    let reason = led.and_then(|(_, after)| after.strip_prefix(": "));
    Item {
        line,
        path: led.map(|(path, _)| path.to_string()),
        reason: reason.unwrap_or("").trim().to_string(),
        named: in_backticks(text).map(str::to_string).collect(),
    }
}

/// What docs/PROMISES.md names.
#[derive(Debug, Default)]
pub struct Promises {
    /// Every word in backticks.
    pub named: HashSet<String>,
    /// The paths that rows of a table begin with, each with its line.
    pub rows: Vec<(usize, String)>,
}

pub fn promises(page: &str) -> Promises {
    let mut found = Promises::default();
    for (at, line) in page.lines().enumerate() {
        found.named.extend(in_backticks(line).map(str::to_string));
        if let Some(path) = row_path(line) {
            found.rows.push((at + 1, path.to_string()));
        }
    }
    found
}

/// The path that a table's row begins with, as in ``| `trb::decode` | ..``.
fn row_path(line: &str) -> Option<&str> {
    let cell = line.trim_start().strip_prefix('|')?.trim_start();
    let (path, _) = cell.strip_prefix('`')?.split_once('`')?;
    path.contains("::").then_some(path)
}

/// The lines of a page under a heading of the second level, each with its number.
pub fn section<'a>(page: &'a str, title: &str) -> Vec<(usize, &'a str)> {
    let mut found = Vec::new();
    let mut inside = false;
    for (at, line) in page.lines().enumerate() {
        match line.strip_prefix("## ") {
            Some(heading) => inside = heading == title,
            None if inside => found.push((at + 1, line)),
            None => {}
        }
    }
    found
}

/// The words in backticks, each between an opening and a closing one.
pub fn in_backticks(text: &str) -> impl Iterator<Item = &str> {
    let closed = text.matches('`').count() / 2;
    let pieces = text.split('`').skip(1).step_by(2).take(closed);
    pieces.filter(|piece| !piece.is_empty())
}

#[cfg(test)]
mod tests {
    use super::*;

    #[test]
    fn loose_items_have_a_path_and_a_reason() {
        let page = "# Loose\n\nText with `words`.\n\n- `a::f`: the rest of the room is free,\n  and so no\n  ensures.\n\n  Other text.\n- `a::g` lacks a colon\n- no path\n";
        let items = loose(page);
        assert_eq!(items.len(), 3);
        assert_eq!(items[0].line, 5);
        assert_eq!(items[0].path.as_deref(), Some("a::f"));
        assert_eq!(
            items[0].reason,
            "the rest of the room is free, and so no ensures."
        );
        assert!(items[0].says_no_ensures());
        assert_eq!(items[1].path.as_deref(), Some("a::g"));
        assert_eq!(items[1].reason, "");
        assert_eq!(items[1].named, ["a::g"]);
        assert_eq!(items[2].path, None);
    }

    #[test]
    fn promises_are_words_in_backticks_and_rows() {
        let page = "See `a::f` and `a::g.\n```text\n| `a::h` | `def` | x |\n|`E1`| marked |\n";
        let found = promises(page);
        let mut named: Vec<&str> = found.named.iter().map(String::as_str).collect();
        named.sort_unstable();
        assert_eq!(named, ["E1", "a::f", "a::h", "def"]);
        assert_eq!(found.rows, [(3, "a::h".to_string())]);
    }
}
