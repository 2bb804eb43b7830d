//! Runs the original and the port on the same inputs and holds everything beside each other; then the port's ring and reader
//! beside a plain list; then its memory and all of its rings beside the words of document 01 and R-5.

// Some of what they can do only the comparison asks for.
#![cfg_attr(not(at_hand), allow(dead_code))]

mod bench;
mod inputs;
mod links;
mod random;
mod reference;
mod schedules;
mod tally;

#[cfg(at_hand)]
mod compare;
#[cfg(at_hand)]
mod record;

use random::Random;
use reference::Beside;
use std::error::Error;
use std::process::ExitCode;
use std::time::{Duration, Instant, SystemTime, UNIX_EPOCH};
use tally::Tally;

const HELP: &str = "\
side_by_side [--seed NUMBER] [--soak SECONDS]
    compares the original and the port on all small and some random inputs
    --seed NUMBER   takes the random inputs of an earlier run
    --soak SECONDS  goes on with random inputs for so long
side_by_side bench
    compares their speed (docs/SPEED.md)
side_by_side record
    writes a sample of the original's answers, which crates/replay runs";

struct Options {
    seed: u64,
    soak: Duration,
}

fn options<'a>(mut words: impl Iterator<Item = &'a String>) -> Option<Options> {
    let now = SystemTime::now().duration_since(UNIX_EPOCH);
    let mut options = Options {
        seed: now.map_or(1, |since| since.as_nanos() as u64),
        soak: Duration::ZERO,
    };
    while let Some(word) = words.next() {
        let number = words.next()?.parse().ok()?;
        match word.as_str() {
            "--seed" => options.seed = number,
            "--soak" => options.soak = Duration::from_secs(number),
            _ => return None,
        }
    }
    Some(options)
}

#[cfg(not(at_hand))]
mod compare {
    //! There is no original here to compare with.
    use super::{Random, Tally};

    pub fn exhaustive(_: &mut Random) -> Vec<Tally> {
        println!("COMPARED NOTHING with the original, which is not at hand");
        Vec::new()
    }

    pub fn at_random(_: &mut Random) -> Vec<Tally> {
        Vec::new()
    }
}

/// What a run counts: the kinds held beside the original, the port's ring and reader beside a list, and the kinds held beside
/// document 01.
struct Counts {
    original: Vec<Tally>,
    list: Tally,
    document: Vec<Beside>,
}

impl Counts {
    /// Takes up counts of the original's, each kind under one name.
    fn join(&mut self, more: Vec<Tally>) {
        for tally in more {
            match self
                .original
                .iter_mut()
                .find(|known| known.name() == tally.name())
            {
                Some(known) => known.join(tally),
                None => self.original.push(tally),
            }
        }
    }

    fn round(&mut self, random: &mut Random) {
        self.join(compare::at_random(random));
        self.list.join(schedules::any(random, 400, 300));
        let more = reference::any(random, 20_000);
        for (known, more) in self.document.iter_mut().zip(more) {
            known.join(more);
        }
    }

    fn compared(&self) -> u64 {
        self.original.iter().map(Tally::compared).sum()
    }

    fn differing(&self) -> u64 {
        let document = self.document.iter().map(|beside| &beside.tally);
        let tallies = self.original.iter().chain([&self.list]).chain(document);
        tallies.map(Tally::differing).sum()
    }

    fn print(&self) {
        self.original.iter().for_each(Tally::print);
        self.list.print();
        self.document.iter().for_each(Beside::print);
        let document = self.document.iter().map(|beside| beside.tally.compared());
        println!(
            "side by side: {} compared with the original, {} with a list, {} with document 01, {} differ",
            self.compared(),
            self.list.compared(),
            document.sum::<u64>(),
            self.differing()
        );
    }
}

/// Rounds that every run has: with what is exhaustive some 82 million comparisons, four million beside the list, and seven beside
/// document 01, half of them in windows that begin above 0.
const ROUNDS: u32 = 40;

/// So many seconds pass between two lines that tell how far a run is.
const TELL_EVERY: u64 = 10;

/// Ends with the round in which something differs.
fn run(options: &Options) -> Counts {
    let mut random = Random::new(options.seed);
    let mut counts = Counts {
        original: Vec::new(),
        list: schedules::any(&mut random, 0, 0),
        document: reference::any(&mut random, 0),
    };
    counts.join(compare::exhaustive(&mut random));
    let (start, mut rounds, mut told) = (Instant::now(), 0, 0);
    while rounds < ROUNDS || start.elapsed() < options.soak {
        if counts.differing() != 0 {
            break;
        }
        counts.round(&mut random);
        rounds += 1;
        let seconds = start.elapsed().as_secs();
        if seconds >= told + TELL_EVERY {
            println!("{seconds:>6} s: {} compared", counts.compared());
            told = seconds;
        }
    }
    counts
}

fn compare(words: &[String]) -> ExitCode {
    let Some(options) = options(words.iter()) else {
        eprintln!("{HELP}");
        return ExitCode::from(2);
    };
    println!("seed {}", options.seed);
    // The original panics where it is full; such a panic is an answer.
    std::panic::set_hook(Box::new(|_| {}));
    let counts = run(&options);
    counts.print();
    ExitCode::from(u8::from(counts.differing() != 0))
}

/// How a subcommand ended.
fn ended(name: &str, done: Result<(), Box<dyn Error>>) -> ExitCode {
    match done {
        Ok(()) => ExitCode::SUCCESS,
        Err(error) => {
            eprintln!("side_by_side {name}: {error}");
            ExitCode::FAILURE
        }
    }
}

#[cfg(at_hand)]
fn recorded() -> Result<(), Box<dyn Error>> {
    let cases = record::record(&mut std::io::stdout().lock())?;
    eprintln!("{cases} cases recorded");
    Ok(())
}

#[cfg(not(at_hand))]
fn recorded() -> Result<(), Box<dyn Error>> {
    Err("the original is not at hand".into())
}

fn main() -> ExitCode {
    let words: Vec<String> = std::env::args().skip(1).collect();
    match words.iter().map(String::as_str).collect::<Vec<_>>()[..] {
        ["bench", ..] => ended("bench", bench::main(&words[1..])),
        ["record"] => ended("record", recorded()),
        _ => compare(&words),
    }
}
