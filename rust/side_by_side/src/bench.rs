//! `side_by_side bench`: how many instructions and how much time a call takes (docs/SPEED.md).

mod alike;
#[cfg(floor)]
mod floor;
mod inputs;
mod line;
mod measure;
#[cfg(at_hand)]
mod original;
mod port;
mod table;
mod verdict;

use line::Line;
use std::error::Error;

/// Makes a line's calls, so many rounds of [`inputs::ROUND`] calls each; answers whether the subject has the line.
type Run = fn(Line, u64) -> bool;

/// What is measured: a column of the table.
struct Subject {
    name: &'static str,
    run: Run,
}

/// The subject that the others are held against.
const PORT: usize = 0;
/// The original over its plain bus.
const ORIGINAL_AT: usize = 1;

const SUBJECTS: [Subject; 4] = [
    Subject {
        name: "port",
        run: port::run,
    },
    Subject {
        name: "original",
        run: ORIGINAL,
    },
    Subject {
        name: "original, dyn",
        run: ORIGINAL_DYN,
    },
    Subject {
        name: "C, no checks",
        run: FLOOR,
    },
];

#[cfg(at_hand)]
const ORIGINAL: Run = original::with_static_bus::run;
#[cfg(at_hand)]
const ORIGINAL_DYN: Run = original::with_dyn_bus::run;
#[cfg(floor)]
const FLOOR: Run = floor::run;

#[cfg(not(at_hand))]
const ORIGINAL: Run = left_out;
#[cfg(not(at_hand))]
const ORIGINAL_DYN: Run = left_out;
#[cfg(not(floor))]
const FLOOR: Run = left_out;

#[cfg(not(all(at_hand, floor)))]
fn left_out(_: Line, _: u64) -> bool {
    false
}

/// `bench` prints the table. `bench --one SUBJECT LINE ROUNDS`, by their numbers, makes calls and prints nothing: what the first
/// runs under valgrind.
pub fn main(words: &[String]) -> Result<(), Box<dyn Error>> {
    match words {
        [] => print(),
        [one, subject, line, rounds] if one == "--one" => {
            let subject = SUBJECTS
                .get(subject.parse::<usize>()?)
                .ok_or("no such subject")?;
            let (line, _) = Line::ALL
                .get(line.parse::<usize>()?)
                .ok_or("no such line")?;
            (subject.run)(*line, rounds.parse()?);
            Ok(())
        }
        _ => Err("usage: side_by_side bench".into()),
    }
}

fn print() -> Result<(), Box<dyn Error>> {
    if cfg!(debug_assertions) {
        return Err("speed is measured in a release build: cargo run --release".into());
    }
    if cfg!(not(at_hand)) {
        println!("left out: the original, which is not at hand");
    }
    if cfg!(not(floor)) {
        println!("left out: the C functions, as there is no C compiler");
    }
    let has: Vec<_> = Line::ALL
        .map(|(line, _)| SUBJECTS.each_ref().map(|s| (s.run)(line, 0)))
        .into();
    match measure::instructions(&has)? {
        Some(counts) => {
            let verdict = verdict::of_instructions;
            print!("{}", table::rows("instructions", &counts, verdict));
        }
        None => println!("left out: instructions, as there is no valgrind"),
    }
    let times = measure::nanoseconds(&has);
    print!(
        "{}",
        table::rows("ns", &times, |_, row| verdict::of_time(row))
    );
    Ok(())
}
