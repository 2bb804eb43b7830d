//! docs/LAB.md: every example is run, and every command has one.

use lab::output::{Output, Stop};
use lab::run::run;
use lab::script::FORMS;
use std::path::{Path, PathBuf};
use std::process::Command;

const MANUAL: &str = include_str!("../../../docs/LAB.md");

/// The fenced blocks of a kind, each with its lines.
fn blocks(kind: &str) -> Vec<Vec<&'static str>> {
    let fence = format!("```{kind}");
    let mut blocks = Vec::new();
    let mut lines = MANUAL.lines();
    while lines.any(|line| line == fence) {
        blocks.push(lines.by_ref().take_while(|line| *line != "```").collect());
    }
    blocks
}

/// What is typed in a block.
fn typed<'a>(block: &[&'a str]) -> Vec<&'a str> {
    block
        .iter()
        .filter_map(|line| line.strip_prefix("> "))
        .collect()
}

fn check_scripts(kind: &str, json: bool) -> usize {
    let blocks = blocks(kind);
    for block in &blocks {
        let script = typed(block).join("\n");
        let mut said = Vec::new();
        let ended = run(&mut script.as_bytes(), json, &mut Output::plain(&mut said));
        let mut said = String::from_utf8(said).expect("text");
        if let Err(Stop::Misuse(fault)) = ended {
            said += &fault;
        }
        let answers = block.iter().copied().filter(|line| !line.starts_with("> "));
        let expected: Vec<&str> = answers.collect();
        assert_eq!(said.lines().collect::<Vec<_>>(), expected, "{script}");
    }
    blocks.len()
}

#[test]
fn every_script_is_answered_as_written() {
    assert_eq!(check_scripts("lab", false), 9);
    assert_eq!(check_scripts("lab json", true), 1);
}

#[test]
fn every_command_is_named_and_has_an_example() {
    let blocks = blocks("lab");
    let typed: Vec<&str> = blocks.iter().flat_map(|block| typed(block)).collect();
    for (form, _) in FORMS {
        assert!(MANUAL.contains(&format!("`{form}`")), "{form} is not named");
        // With what stands in brackets.
        let whole = form.replace(['[', ']'], "");
        let like_form = |line: &str| {
            let pairs = whole.split(' ').zip(line.split(' '));
            let fixed = |word: &str| word.chars().all(|c| !c.is_uppercase());
            line.split(' ').count() >= whole.split(' ').count()
                && pairs
                    .filter(|(word, _)| fixed(word))
                    .all(|(word, said)| word == said)
        };
        assert!(
            typed.iter().any(|line| like_form(line)),
            "{form} has no example"
        );
    }
}

fn repository() -> PathBuf {
    Path::new(env!("CARGO_MANIFEST_DIR")).join("../..")
}

/// Whether the expected lines stand among the lines in this order; where `..` stands others may come between.
fn stand_in_order(expected: &[&str], mut said: std::str::Lines<'_>) -> bool {
    let mut gap = false;
    for line in expected {
        let found = match (*line, gap) {
            ("..", _) => true,
            (line, true) => said.any(|said| said == line),
            (line, false) => said.next() == Some(line),
        };
        if !found {
            return false;
        }
        gap = *line == "..";
    }
    gap || said.next().is_none()
}

#[test]
fn every_command_line_answers_as_written() {
    let blocks = blocks("console");
    for block in &blocks {
        let (line, expected) = block.split_first().expect("a command line");
        let arguments = line.strip_prefix("$ ./lomvigast ").expect("a command line");
        let said = Command::new(env!("CARGO_BIN_EXE_lomvigast_lab"))
            .args(arguments.split(' '))
            .current_dir(repository())
            .output()
            .expect("the program runs");
        assert_eq!(said.status.code(), Some(0), "{line}");
        let said = String::from_utf8(said.stdout).expect("text");
        assert!(
            stand_in_order(expected, said.lines()),
            "{line}\nsays\n{said}"
        );
    }
    assert_eq!(blocks.len(), 3);
}
