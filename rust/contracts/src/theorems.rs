//! Holds the theorems that docs/PROMISES.md names: each is declared in its file, and docs/THEOREMS.md has its statement
//! as the file has it, with all that the statement is made of and that stands in proofs/ too.

use std::collections::{BTreeMap, HashMap, HashSet};

use crate::declared::{declared, Declaration, Declared, Used};
use crate::fault::Fault;
use crate::lex::{antt, bare};
use crate::pages::{in_backticks, section};
use crate::tree::{Tree, PROMISES, THEOREMS};

const TABLE: &str = "Theorems that belong to no function";
const AFTER: [&str; 4] = [
    "Demands",
    "Document 01, line by line",
    "Wrong programs, and what stops each",
    "What stops a slip in definition and code alike",
];

/// A row of the table: the names in backticks, and the files.
#[derive(Debug, PartialEq, Eq)]
struct Row {
    line: usize,
    names: Vec<String>,
    files: Vec<String>,
}

/// The rows; one that says "the same" has the files of the one before.
fn rows(page: &str) -> Vec<Row> {
    let mut found: Vec<Row> = Vec::new();
    for (line, text) in section(page, TABLE) {
        let cells: Vec<&str> = text.split('|').map(str::trim).collect();
        let ["", statement, place, _, ""] = cells[..] else {
            continue;
        };
        if statement == "Statement" || statement.starts_with("---") {
            continue;
        }
        let named = place
            .split([' ', ','])
            .filter(|word| word.ends_with(".antt"));
        let files = match found.last() {
            Some(before) if place == "the same" => before.files.clone(),
            _ => named.map(str::to_string).collect(),
        };
        let names = in_backticks(statement).map(str::to_string).collect();
        found.push(Row { line, names, files });
    }
    found
}

fn stands_in(file: &str, folder: &str) -> bool {
    file.split('/').nth(2) == Some(folder)
}

/// What the files of specs/ declare, and those of proofs/ that belong to no one function.
type Books = BTreeMap<String, Declared>;

fn books(tree: &Tree) -> (Books, Vec<Fault>) {
    let (mut found, mut faults) = (Books::new(), Vec::new());
    for file in tree.crates.iter().flat_map(|one| &one.files) {
        let name = &file.name;
        let own = stands_in(name, "proofs") && name.split('/').count() == 4;
        if !name.ends_with(".antt") || !(own || stands_in(name, "specs")) {
            continue;
        }
        match declared(&file.text) {
            Ok(read) => {
                found.insert(name.clone(), read);
            }
            Err(trouble) => faults.push(Fault::new(
                name,
                trouble.line,
                "its declarations",
                trouble.what,
            )),
        }
    }
    (found, faults)
}

/// Every rule for the theorems.
pub fn faults(tree: &Tree) -> Vec<Fault> {
    let rows = rows(&tree.promises);
    let (books, mut found) = books(tree);
    if rows.is_empty() {
        found.push(Fault::new(PROMISES, 1, TABLE, "is no table with a row"));
    }
    found.extend(undeclared(&rows, &books));
    found.extend(unknown(&tree.promises, &rows, &books));
    found.extend(differences(&tree.theorems, &statements(&rows, &books)));
    found
}

/// Names of the table that a file of theirs does not declare.
fn undeclared(rows: &[Row], books: &Books) -> Vec<Fault> {
    let mut found = Vec::new();
    for row in rows {
        let files: Vec<&String> = row
            .files
            .iter()
            .filter(|file| stands_in(file, "proofs"))
            .collect();
        if files.is_empty() || row.names.is_empty() {
            let what = "names no theorem in backticks, or no file of proofs/";
            found.push(Fault::new(PROMISES, row.line, TABLE, what));
        }
        for file in files {
            let public = |one: &Declaration| antt(&one.head).iter().any(|word| word.text == "pub");
            let declares = |name: &str| {
                books
                    .get(file)
                    .is_some_and(|read| read.all(name).any(public))
            };
            let lost = row.names.iter().filter(|name| !declares(name));
            found.extend(lost.map(|name| {
                Fault::new(
                    PROMISES,
                    row.line,
                    name,
                    format!("is not declared in {file}"),
                )
            }));
        }
    }
    found
}

/// Names in backticks below the table that are neither in it nor declared in a file of specs/.
fn unknown(page: &str, rows: &[Row], books: &Books) -> Vec<Fault> {
    let in_table = |name: &str| {
        rows.iter()
            .any(|row| row.names.iter().any(|one| one == name))
    };
    let specs: Vec<&Declared> = books
        .iter()
        .filter(|(file, _)| stands_in(file, "specs"))
        .map(|(_, read)| read)
        .collect();
    let in_specs = |name: &str| specs.iter().any(|read| read.has(name));
    let lines = AFTER.iter().flat_map(|title| section(page, title));
    let named = lines.flat_map(|(line, text)| in_backticks(text).map(move |name| (line, name)));
    let lost = named.filter(|(_, name)| !in_table(name) && !in_specs(name));
    let what = "is neither a theorem of the table nor declared in specs/";
    lost.map(|(line, name)| Fault::new(PROMISES, line, name, what))
        .collect()
}

/// A paragraph of the page: a declaration, or the `use` lines of a file.
#[derive(Debug, PartialEq, Eq)]
struct Paragraph {
    name: String,
    line: usize,
    text: String,
}

/// A file, and what the page has of it.
type Section = (String, Vec<Paragraph>);

/// What the statements of the table are made of, file by file in the order in which they are come to.
fn statements(rows: &[Row], books: &Books) -> Vec<Section> {
    let mut asked = Asked {
        books,
        listed: rows
            .iter()
            .flat_map(|row| row.files.iter().map(String::as_str))
            .collect(),
        theorems: rows
            .iter()
            .flat_map(|row| row.names.iter().map(String::as_str))
            .collect(),
        shown: HashMap::new(),
        order: Vec::new(),
    };
    for row in rows {
        for file in row.files.iter().filter(|file| stands_in(file, "proofs")) {
            for name in &row.names {
                asked.ask(file, name);
            }
        }
    }
    let sections = asked
        .order
        .iter()
        .map(|file| (file.clone(), asked.paragraphs(file)));
    sections.collect()
}

struct Asked<'a> {
    books: &'a Books,
    listed: HashSet<&'a str>,
    theorems: HashSet<&'a str>,
    shown: HashMap<String, HashSet<String>>,
    order: Vec<String>,
}

impl Asked<'_> {
    /// Shows what a name is declared as, and what that is made of.
    fn ask(&mut self, file: &str, name: &str) {
        let books = self.books;
        let Some(read) = books.get(file).filter(|read| read.has(name)) else {
            return;
        };
        if !self.shown.contains_key(file) {
            self.order.push(file.to_string());
        }
        if !self
            .shown
            .entry(file.to_string())
            .or_default()
            .insert(bare(name).to_string())
        {
            return;
        }
        let text: String = read
            .all(name)
            .map(|one| format!("{}\n", self.text(one)))
            .collect();
        let words: Vec<&str> = antt(&text).iter().map(|word| bare(word.text)).collect();
        for (at, word) in words.iter().enumerate() {
            self.ask(file, word);
            for used in read.uses.iter().filter(|used| cites(used, word)) {
                let name = match (used.from.as_str(), words.get(at + 1..at + 3)) {
                    ("", Some([".", name])) => name,
                    (name, _) => name,
                };
                if let Some(file) = self.home(&used.module) {
                    self.ask(&file, name);
                }
            }
        }
    }

    /// A declaration with the modules around it. Of a theorem the proof is left out.
    fn text(&self, one: &Declaration) -> String {
        let body = if self.theorems.contains(one.name.as_str()) {
            ""
        } else {
            &one.body
        };
        let parts = one
            .modules
            .iter()
            .map(String::as_str)
            .chain([one.head.as_str(), body.trim_end()]);
        let parts: Vec<&str> = parts.filter(|part| !part.is_empty()).collect();
        parts.join("\n")
    }

    /// The file of a module of proofs/, or of specs/ where the table names the file.
    fn home(&self, module: &str) -> Option<String> {
        let (name, path) = module.strip_prefix("Rattle.")?.split_once('.')?;
        let file = format!("crates/{name}/{}.antt", path.replace('.', "/"));
        (stands_in(&file, "proofs") || self.listed.contains(file.as_str())).then_some(file)
    }

    /// The paragraphs of a file: where its names are from, and its declarations in their order.
    fn paragraphs(&self, file: &str) -> Vec<Paragraph> {
        let read = &self.books[file];
        let shown = read
            .declarations
            .iter()
            .filter(|one| self.shown[file].contains(&one.name));
        let shown: Vec<Paragraph> = shown
            .map(|one| Paragraph {
                name: one.name.clone(),
                line: one.line,
                text: self.text(one),
            })
            .collect();
        let text: String = shown.iter().map(|one| format!("{}\n", one.text)).collect();
        let words: HashSet<&str> = antt(&text).iter().map(|word| bare(word.text)).collect();
        let mut lines: BTreeMap<&str, Vec<String>> = BTreeMap::new();
        for used in read
            .uses
            .iter()
            .filter(|used| words.iter().any(|word| cites(used, word)))
        {
            lines.entry(&used.module).or_default().push(spelled(used));
        }
        let uses: Vec<String> = lines
            .iter()
            .map(|(module, names)| format!("{module}: {}", names.join(", ")))
            .collect();
        let uses = Paragraph {
            name: "the names that it brings in".to_string(),
            line: 1,
            text: uses.join("\n"),
        };
        [uses].into_iter().chain(shown).collect()
    }
}

fn spelled(used: &Used) -> String {
    match used.from.as_str() {
        "" => format!("all, as {}", used.name),
        from if from == used.name => from.to_string(),
        from => format!("{from} as {}", used.name),
    }
}

/// Whether a word is the name that a `use` brings in, or a part of the operator.
fn cites(used: &Used, word: &str) -> bool {
    used.name == word || used.name.contains('◌') && used.name.split('◌').any(|part| part == word)
}

/// docs/THEOREMS.md as it should be.
pub fn page(tree: &Tree) -> String {
    let mut page = String::from(HEAD);
    for (file, paragraphs) in statements(&rows(&tree.promises), &books(tree).0) {
        let texts: Vec<&str> = paragraphs.iter().map(|one| one.text.as_str()).collect();
        page.push_str(&format!(
            "\n## {file}\n\n```text\n{}\n```\n",
            texts.join("\n\n")
        ));
    }
    page
}

const HEAD: &str = "# The theorems' statements

For reviewers: what docs/PROMISES.md names under \"Theorems that belong to no function\", as the files of proofs/ state it. Each theorem has its type, with the modules around it, and each definition of proofs/ that a type is made of is here too. The first lines of a file say where its other names are from: definitions of specs/ are read there, but for demand 3's own file, which is here. The gate holds this page to the files;

    cargo run --manifest-path rust/Cargo.toml --package contracts -- --theorems . > docs/THEOREMS.md

writes it anew, and the difference is what a reviewer must read.
";

/// Where the page and the files part.
fn differences(page: &str, wanted: &[Section]) -> Vec<Fault> {
    let mut found = Vec::new();
    for (file, paragraphs) in wanted {
        let written = written(page, file);
        for one in paragraphs
            .iter()
            .filter(|one| !written.iter().any(|(_, text)| *text == one.text))
        {
            let what = format!(
                "is not in {THEOREMS} as it is here; that page says how it is written anew"
            );
            found.push(Fault::new(file, one.line, &one.name, what));
        }
        let extra = written
            .iter()
            .filter(|(_, text)| !paragraphs.iter().any(|one| one.text == *text));
        found.extend(
            extra.map(|(line, _)| Fault::new(THEOREMS, *line, file, "has no such statement")),
        );
    }
    let headings = page
        .lines()
        .enumerate()
        .filter_map(|(at, line)| Some((at + 1, line.strip_prefix("## ")?)));
    let lost = headings.filter(|(_, title)| !wanted.iter().any(|(file, _)| file == title));
    found.extend(
        lost.map(|(line, title)| Fault::new(THEOREMS, line, title, "has no theorem of the table")),
    );
    found
}

/// The paragraphs that the page has of a file, each with its line.
fn written(page: &str, file: &str) -> Vec<(usize, String)> {
    let mut found: Vec<(usize, String)> = Vec::new();
    let mut open = false;
    for (line, text) in section(page, file) {
        if text.is_empty() || text.starts_with("```") {
            open = false;
        } else if let Some((_, paragraph)) = found.last_mut().filter(|_| open) {
            paragraph.push('\n');
            paragraph.push_str(text);
        } else {
            found.push((line, text.to_string()));
            open = true;
        }
    }
    found
}

#[cfg(test)]
mod tests {
    use super::*;
    use crate::demo::{demo, lines, one_fault, LAWS};
    use crate::tree::File;

    const PROOFS: &str = "use Rattle.std.specs.Prelude.{ℕ, ◌<◌}
use Rattle.demo.specs.Ends.{End, far}
use Rattle.demo.proofs.Near as near

pub record Short (n : ℕ) : Type 0 where
  pub below : n < near.bound
  pub above : End n

module _ (m : ℕ) where
  pub law : Short m → m < far
  unfolding far
  law h = ?
";

    const NEAR: &str =
        "use Rattle.std.specs.Prelude.{ℕ}\n\nabbrev pub bound : ℕ\nbound = 9\n\npub other : ℕ\nother = 1\n";

    /// A repository with these proofs, and a page that was written when they were `PROOFS`.
    fn tree(proofs: &str, near: &str, specs: &str) -> Tree {
        let mut tree = demo("", "", "");
        let parts = [
            ("proofs/Laws.antt", PROOFS),
            ("proofs/Near.antt", NEAR),
            ("specs/Ends.antt", "pub End : ℕ\nEnd = 1\n"),
        ];
        tree.crates[0].files = files(parts);
        tree.theorems = page(&tree);
        tree.crates[0].files = files([
            ("proofs/Laws.antt", proofs),
            ("proofs/Near.antt", near),
            ("specs/Ends.antt", specs),
        ]);
        tree
    }

    fn files(parts: [(&str, &str); 3]) -> Vec<File> {
        let file = |(name, text): (&str, &str)| File {
            name: format!("crates/demo/{name}"),
            text: text.to_string(),
        };
        parts.map(file).into()
    }

    const SPECS: &str = "pub End : ℕ\nEnd = 1\n";

    fn told(proofs: &str) -> Vec<String> {
        faults(&tree(proofs, NEAR, SPECS))
            .iter()
            .map(Fault::to_string)
            .collect()
    }

    #[test]
    fn the_page_shows_what_a_statement_is_made_of() {
        let tree = tree(PROOFS, NEAR, SPECS);
        let expected = "\n## crates/demo/proofs/Laws.antt

```text
Rattle.demo.proofs.Near: all, as near
Rattle.demo.specs.Ends: End, far
Rattle.std.specs.Prelude: ℕ, ◌<◌

pub record Short (n : ℕ) : Type 0 where
  pub below : n < near.bound
  pub above : End n

module _ (m : ℕ) where
  pub law : Short m → m < far
```

## crates/demo/proofs/Near.antt

```text
Rattle.std.specs.Prelude: ℕ

abbrev pub bound : ℕ
bound = 9
```
";
        assert_eq!(page(&tree).strip_prefix(HEAD), Some(expected));
        assert_eq!(faults(&tree), []);
    }

    /// Changes of `PROOFS`, and the declaration that each changes, with its line.
    const CHANGES: [(&str, &str, &str); 5] = [
        ("Short m → m", "Short m → far < m → m", "10: law"),
        ("(m : ℕ) where", "(m : ℕ) (never : ⊥) where", "10: law"),
        ("  pub above : End n\n", "", "5: Short"),
        ("  pub above", "  -- pub above", "5: Short"),
        (
            "specs.Ends",
            "specs.Other",
            "1: the names that it brings in",
        ),
    ];

    #[test]
    fn a_statement_that_is_changed_is_told() {
        for (old, new, name) in CHANGES {
            let found = told(&PROOFS.replace(old, new));
            let first = format!("crates/demo/proofs/Laws.antt:{name}: is not in docs/THEOREMS.md");
            assert!(found.iter().any(|line| line.contains(&first)), "{found:#?}");
            let second = "has no such statement";
            assert!(found.iter().any(|line| line.contains(second)), "{found:#?}");
        }
        let other_proof = PROOFS.replace("law h = ?", "law h = h.below");
        assert_eq!(told(&other_proof), [""; 0]);
    }

    #[test]
    fn a_definition_that_is_changed_is_told() {
        let near = NEAR.replace("bound = 9", "bound = 8");
        let found = faults(&tree(PROOFS, &near, SPECS));
        let first = "crates/demo/proofs/Near.antt:3: bound: is not in docs/THEOREMS.md";
        assert!(found[0].to_string().starts_with(first), "{found:#?}");
        let near = NEAR.replace("other = 1", "other = 2");
        assert_eq!(faults(&tree(PROOFS, &near, SPECS)), []);
    }

    #[test]
    fn a_theorem_that_is_not_declared_is_told() {
        for (old, new) in [
            ("  pub law :", "  law :"),
            ("  pub law :", "  pub laws :"),
            (
                "  pub law : Short m → m < far\n",
                "  -- pub law : Short m → m < far\n",
            ),
            (
                "  pub law : Short m → m < far\n",
                "  {- pub law : Short m → m < far -}\n",
            ),
        ] {
            let found = told(&PROOFS.replace(old, new));
            let what = "law: is not declared in crates/demo/proofs/Laws.antt";
            assert!(
                found.iter().any(|line| line.contains(what)),
                "{new}\n{found:#?}"
            );
        }
    }

    #[test]
    fn the_page_of_promises_names_theorems_and_files() {
        let mut tree = demo("", "", "");
        tree.promises
            .push_str("\n## Demands\n\n1. `law`, and `gone`.\n");
        one_fault(
            &lines(&tree),
            "gone: is neither a theorem of the table nor declared in specs/",
        );
        for (old, new, what) in [
            ("`law`", "law", "names no theorem in backticks"),
            (
                "crates/demo/proofs/Laws.antt",
                "the same",
                "names no theorem in backticks, or no file of proofs/",
            ),
            (
                "crates/demo/proofs/Laws.antt",
                "crates/demo/proofs/Gone.antt",
                "law: is not declared in",
            ),
            (
                "| All is well: `law` | crates/demo/proofs/Laws.antt | |",
                "",
                "is no table with a row",
            ),
        ] {
            let mut tree = demo("", "", "");
            tree.promises = tree.promises.replace(old, new);
            let found = lines(&tree);
            assert!(
                found.iter().any(|line| line.contains(what)),
                "{new}\n{found:#?}"
            );
        }
    }

    #[test]
    fn a_file_that_cannot_be_read_is_told() {
        let mut tree = demo("", "", "");
        tree.crates[0].files[1].text = format!("{LAWS}\nopen Laws using (law)\n");
        let first = "crates/demo/proofs/Laws.antt:6: its declarations: has `open`";
        assert!(lines(&tree)[0].starts_with(first), "{:#?}", lines(&tree));
    }
}
