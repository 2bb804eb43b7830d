//! The original and the port on the same inputs.

pub mod books;
mod chases;
mod rings;
mod trbs;

use crate::random::Random;
use crate::tally::Tally;

/// Inputs that can be gone through one by one: all of them, each time.
pub fn exhaustive(random: &mut Random) -> Vec<Tally> {
    let mut tallies = vec![trbs::codes()];
    tallies.extend(trbs::PARSERS.map(|(name, hold)| trbs::every_byte(name, hold, random, 3)));
    tallies.extend([
        chases::every_memory(1, true),
        chases::every_memory(2, true),
        chases::every_memory(3, true),
        chases::every_memory(4, false),
        chases::boundaries(),
        rings::every_sequence(10),
    ]);
    tallies
}

/// One round of inputs at random.
pub fn at_random(random: &mut Random) -> Vec<Tally> {
    let mut tallies = Vec::new();
    tallies.extend(trbs::PARSERS.map(|(name, hold)| trbs::any(name, hold, random, 100_000)));
    tallies.extend([
        trbs::events(random, 100_000),
        trbs::decoder(random, 100_000),
        trbs::parts(random, 50_000),
        chases::small(random, 200_000),
        chases::long(random, 5_000),
        chases::in_windows(random, 50_000),
        chases::steps(random, 50_000),
        rings::any(random, 200, 4, 4, 300),
        rings::any(random, 20, 16, 32, 2_000),
        rings::any(random, 1, 16, 4096, 20_000),
        rings::anywhere(random, 100, 200),
        rings::moved(random, 200, 200),
        rings::refused_tables(random, 5_000),
    ]);
    tallies
}
