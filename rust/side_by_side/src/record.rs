//! A sample of the original's answers, in document 01's words, for crates/replay: chosen inputs and random ones of document 01's domain.

mod events;
mod parsers;
mod rings;

use crate::random::Random;
use std::collections::BTreeMap;
use std::io::{Result, Write};

const SEED: u64 = 0x10b1_6a57;

/// The kinds that are cases; M and P lines only make the memory for them.
const CASES: &str = "CTLESNGA";

const HEAD: &str = "\
# What usbvfiod's own code (commit 07498f0d62) answers, in document 01's words. crates/replay runs it on the core.
# Made by: cargo run --manifest-path rust/Cargo.toml --package side_by_side -- record > crates/replay/stdin
#
# A line is a letter, the input, a colon, the answer. Numbers are hexadecimal, a flag is 0 or 1, a TRB is its 16 bytes.
# What an answer does not have is 0. EVENT is: type pointer length code event-data endpoint slot port (length is also the parameter).
# C trb: refusal type pointer stream flag context-type endpoint slot raw
#     a command; no Set TR Dequeue Pointer whose stream or context type the original reads elsewhere (docs/DIFFERENCES.md)
# T trb: refusal type pointer length value index byte-0 byte-1 short chain completion immediate direction raw
# L trb: is-link pointer cleared toggle completion
# E EVENT cycle: refusal trb
# S place cycle: place cycle
#     a linked ring set to a place, then advanced
# M length:
#     a memory of zeros, and an event ring never configured, for the lines up to the next M
# P address trb:
#     16 bytes put into that memory
# N place cycle: answer refusal address place cycle links cleared completion trb
#     a chase; answer 0 nothing new, 1 a TRB, 2 too many links
# G table entries: refusal index place remaining cycle
#     the event ring configured
# A EVENT report: refusal index place remaining cycle sum
#     an event added; sum is FNV-1a, of 64 bits, of the whole memory
# A small letter begins a line that is wrong on purpose: one number of the original's answer has its last digit changed.
";

/// Writes the sample, and answers how many cases it has.
pub fn record(out: &mut dyn Write) -> Result<u64> {
    let mut sample = Sample::default();
    let mut random = Random::new(SEED);
    parsers::record(&mut sample, &mut random);
    events::record(&mut sample, &mut random);
    rings::record(&mut sample, &mut random);
    sample.write(out)
}

#[derive(Default)]
struct Sample {
    lines: Vec<String>,
    /// How many lines there are of a kind, by its letter.
    counts: BTreeMap<char, u64>,
}

/// Of so many lines of a kind one comes again with a wrong answer.
const WRONG_ONCE_IN: u64 = 8;

impl Sample {
    fn case(&mut self, letter: char, input: &str, answer: &str) {
        let before = self.count(letter);
        self.line(letter, input, answer);
        // An add that is accepted cannot come again.
        let again = CASES.contains(letter) && (letter != 'A' || answer.starts_with(" 7 "));
        if again && before.is_multiple_of(WRONG_ONCE_IN) {
            let which = self.count(letter.to_ascii_lowercase());
            self.wrong(letter, input, answer, which as usize);
        }
    }

    /// A line with one number of its answer changed in its last digit: of the n numbers the one of `which` modulo n.
    fn wrong(&mut self, letter: char, input: &str, answer: &str, which: usize) {
        let small = letter.to_ascii_lowercase();
        let which = which % answer.split(' ').skip(1).count();
        let changed = |(n, word): (usize, &str)| {
            let (rest, last) = word.split_at(word.len() - 1);
            let digit = u8::from_str_radix(last, 16).expect("an answer has hexadecimal numbers");
            format!(" {rest}{:x}", digit ^ u8::from(n == which))
        };
        let answer: String = answer.split(' ').skip(1).enumerate().map(changed).collect();
        self.line(small, input, &answer);
    }

    fn line(&mut self, letter: char, input: &str, answer: &str) {
        self.lines.push(format!("{letter}{input}:{answer}"));
        *self.counts.entry(letter).or_default() += 1;
    }

    fn count(&self, letter: char) -> u64 {
        self.counts.get(&letter).copied().unwrap_or(0)
    }

    fn write(&self, out: &mut dyn Write) -> Result<u64> {
        let count = |letter| format!(" {letter} {}", self.count(letter));
        let counts: String = CASES.chars().map(count).collect();
        let cases = CASES.chars().map(|letter| self.count(letter)).sum();
        let small = CASES.to_ascii_lowercase();
        let wrong: u64 = small.chars().map(|letter| self.count(letter)).sum();
        writeln!(
            out,
            "{HEAD}#\n# Seed {SEED:#x}. Cases, in decimal:{counts}; in all {cases}, and {wrong} wrong on purpose."
        )?;
        for line in &self.lines {
            writeln!(out, "{line}")?;
        }
        Ok(cases)
    }
}

/// Numbers as they stand in a line.
fn numbers<const N: usize>(values: [u64; N]) -> String {
    values.iter().map(|value| format!(" {value:x}")).collect()
}

/// Bytes as they stand in a line.
fn bytes(trb: &[u8]) -> String {
    let digits: String = trb.iter().map(|byte| format!("{byte:02x}")).collect();
    format!(" {digits}")
}

#[cfg(test)]
mod tests {
    use super::*;
    use std::{fs, path::Path};

    fn of_replay(name: &str) -> String {
        let crates = Path::new(env!("CARGO_MANIFEST_DIR")).join("../../crates");
        fs::read_to_string(crates.join("replay").join(name)).expect("crates/replay can be read")
    }

    #[test]
    fn the_recorded_file_is_what_the_original_answers() {
        let mut now = Vec::new();
        record(&mut now).expect("a vector can be written");
        assert!(of_replay("stdin").into_bytes() == now, "record it anew");
    }

    /// Which numbers of an answer two lines have otherwise, if their inputs are the same.
    fn parted(line: &str, wrong: &str) -> Option<Vec<usize>> {
        let (input, answer) = line[1..].split_once(':')?;
        let (same, changed) = wrong[1..].split_once(':')?;
        let numbers = answer.split(' ').skip(1).zip(changed.split(' ').skip(1));
        let parted = numbers.enumerate().filter(|(_, (a, b))| a != b);
        (input == same).then(|| parted.map(|(n, _)| n).collect())
    }

    /// The wrong lines of a kind behind their right one: each has one number otherwise, and each number has its line.
    #[test]
    fn every_number_of_an_answer_is_wrong_somewhere() {
        let recorded = of_replay("stdin");
        let lines: Vec<&str> = recorded.lines().collect();
        // As many numbers as the head of the file names for each kind.
        let kinds = [("c", 9), ("t", 14), ("l", 5), ("e", 2), ("s", 2), ("n", 9)];
        for (letter, numbers) in kinds.into_iter().chain([("g", 5), ("a", 6)]) {
            let mut wrong: Vec<usize> = Vec::new();
            for pair in lines.windows(2).filter(|pair| pair[1].starts_with(letter)) {
                if let Some(parted) = parted(pair[0], pair[1]) {
                    assert_eq!(parted.len(), 1, "{}", pair[1]);
                    wrong.extend(parted);
                }
            }
            wrong.sort_unstable();
            wrong.dedup();
            assert_eq!(wrong, Vec::from_iter(0..numbers), "{letter}");
        }
    }

    /// What crates/replay must write is counted here and not copied from what it writes.
    #[test]
    fn the_expected_counts_are_those_of_the_recorded_file() {
        let recorded = of_replay("stdin");
        let count = |letter: char| {
            recorded
                .lines()
                .filter(|line| line.starts_with(letter))
                .count()
        };
        let expected = of_replay("stdout");
        let mut lines: Vec<&str> = expected.lines().collect();
        let cases: usize = CASES.chars().map(count).sum();
        let wrong: usize = CASES.to_ascii_lowercase().chars().map(count).sum();
        let total = format!(
            "replay: {} cases read, {cases} agree, {wrong} differ as they must, 0 are otherwise",
            cases + wrong
        );
        assert_eq!(lines.pop(), Some(total.as_str()));
        let letters: Vec<char> = lines
            .iter()
            .filter_map(|line| line.chars().next())
            .collect();
        assert_eq!(letters, Vec::from_iter((CASES.to_owned() + "MP").chars()));
        for line in lines {
            let letter = line.chars().next().expect("no line is empty");
            assert!(line.ends_with(&format!(": {}", count(letter))), "{line}");
        }
    }
}
