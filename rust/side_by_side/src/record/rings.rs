//! Guest memory, the link-following reader and the event ring.

mod chases;
mod event_rings;

use super::{bytes, numbers, Sample};
use crate::random::Random;

pub fn record(sample: &mut Sample, random: &mut Random) {
    chases::record(sample, random);
    event_rings::record(sample, random);
}

/// The lines that make a memory of at least 16 bytes: those that are not 0, in pieces of 16, the last of which may overlap the one before.
fn memory(sample: &mut Sample, memory: &[u8]) {
    let length = memory.len();
    sample.case('M', &numbers([length as u64]), "");
    let starts = (0..length).step_by(16).map(|start| start.min(length - 16));
    for start in starts {
        let piece = &memory[start..start + 16];
        if piece.iter().any(|&byte| byte != 0) {
            sample.case('P', &(numbers([start as u64]) + &bytes(piece)), "");
        }
    }
}
