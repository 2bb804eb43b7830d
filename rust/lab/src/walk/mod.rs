//! Rings followed through the core until an answer ends them, from where the driver stands, and never past what is known.

mod events;
mod linked;

use crate::capture::{Capture, Place, Ring, Start};
use crate::words::Tone;
use crate::world::Answer;
use lomvigast::trb::{cycle_bit, RawTrbBuffer};
use std::collections::HashSet;

/// A TRB that a reader was answered.
pub struct Found {
    pub address: u64,
    pub trb: RawTrbBuffer,
    /// How many links were followed to it.
    pub links: u16,
}

/// What has become of TRBs, as far as the driver told.
#[derive(Debug, Clone, Copy, PartialEq, Eq)]
pub enum Stage {
    /// The driver has seen them done: commands and transfers ended, events taken.
    Done,
    /// The driver has not seen them done: events wait for it, commands and transfers for the device or for their events.
    Pending,
    /// They are fresh, but stand behind the place up to which the driver says it wrote.
    Beyond,
    /// Nobody knows where the driver stands, or in which pass.
    Unknown,
}

/// TRBs that follow each other, and where the first one was looked for.
pub struct Part {
    pub stage: Stage,
    pub from: Place,
    pub found: Vec<Found>,
}

/// What ended a ring.
#[derive(Debug, Clone, PartialEq)]
pub enum Ending {
    /// The core's last answer.
    Answer(Answer),
    /// The reader came to a place and cycle state where it had been, and would go round for ever.
    GoesRound,
    /// What stands at this address decides, and the image does not hold it.
    Missing(u64),
    /// The driver's dequeue place is none of the table's slots, or more than one.
    NoSlot(u64),
    /// Nobody said where the driver stands.
    NoDriver,
    /// A fresh TRB of zeros, which no driver writes.
    Blank,
    /// The next TRB is stale, but the driver has written up to this place, to which the reader never came.
    Unmet(u64),
    /// The ring goes on, and no more TRBs are listed.
    Cut,
    /// The reader came to where it was sent.
    Reached,
}

impl Ending {
    /// How it is to be taken.
    pub fn tone(&self) -> Tone {
        match self {
            Self::Answer(answer) => answer.tone(),
            Self::GoesRound => Tone::GaveUp,
            _ => Tone::Unknown,
        }
    }

    /// Whether the reader stands before a stale TRB.
    fn is_stale(&self) -> bool {
        self.tone() == Tone::Nothing
    }
}

/// A ring as it was read.
pub struct Reading {
    /// The cycle state that was supposed, where nobody said one.
    pub supposed: Option<bool>,
    /// In the order in which their TRBs were written.
    pub parts: Vec<Part>,
    /// Where older TRBs may stand that were not come to, and why.
    pub unseen: Option<(u64, Ending)>,
    pub end: Ending,
    /// Where the reader stands at the end.
    pub at: Place,
}

impl Reading {
    fn new(past: Past, parts: Vec<Part>, end: Ending, at: Place) -> Self {
        let parts = past.parts.into_iter().chain(parts);
        // The last part stays, to say where the reader began.
        let empty = |part: &Part| part.found.is_empty() && part.stage != Stage::Pending;
        let mut parts: Vec<Part> = parts.collect();
        let last = parts.pop();
        parts.retain(|part| !empty(part));
        parts.extend(last);
        Self {
            supposed: None,
            parts,
            unseen: past.unseen,
            end,
            at,
        }
    }

    /// How many TRBs are listed.
    pub fn trbs(&self) -> usize {
        self.parts.iter().map(|part| part.found.len()).sum()
    }

    /// How many of them are of a stage.
    pub fn of_stage(&self, stage: Stage) -> usize {
        let parts = self.parts.iter().filter(|part| part.stage == stage);
        parts.map(|part| part.found.len()).sum()
    }
}

/// Reads a ring, and lists at most so many TRBs. Where nobody said the cycle state it is read with both.
pub fn read(capture: &Capture, ring: &Ring, most: usize) -> Vec<Reading> {
    match (ring.start, ring.driver) {
        (Start::Table(table, entries), driver) => {
            vec![events::read(capture, table, entries, driver, most)]
        }
        (Start::Linked(first, _), Some(driver)) => {
            vec![linked::driven(capture, first, driver, most)]
        }
        (Start::Linked(first, Some(cycle)), None) => {
            vec![linked::driverless(capture, (first, cycle), most)]
        }
        (Start::Linked(first, None), None) => {
            let one = linked::driverless(capture, (first, true), most);
            let left = most - one.trbs();
            let zero = linked::driverless(capture, (first, false), left);
            let supposed = |cycle, reading| Reading {
                supposed: Some(cycle),
                ..reading
            };
            vec![supposed(true, one), supposed(false, zero)]
        }
    }
}

/// A stretch of a ring that a reader went over.
struct Way {
    from: Place,
    found: Vec<Found>,
    end: Ending,
    /// Where it stands at the end.
    at: Place,
}

impl Way {
    fn part(self, stage: Stage) -> Part {
        let (from, found) = (self.from, self.found);
        Part { stage, from, found }
    }
}

/// What lies before the driver's dequeue place.
#[derive(Default)]
struct Past {
    parts: Vec<Part>,
    unseen: Option<(u64, Ending)>,
}

/// All that was written before `until` and not written over, as a reader of the pass before comes to it from where the last TRB
/// was written, if that is known. Where it does not come through, what leads there from the first slot on is shown too.
fn past(
    first: u64,
    last: Option<Place>,
    until: Place,
    most: usize,
    follow: impl Fn(Place, usize) -> Way,
) -> Past {
    let mut past = Past::default();
    let round = last.map(|(place, cycle)| follow((place, !cycle), most));
    let mut left = most;
    if let Some(round) = round {
        let end = round.end.clone();
        left -= round.found.len();
        // Where not even the first TRB was ever written there is no pass before.
        let never = end == Ending::Blank && round.found.is_empty();
        let reached = end == Ending::Reached;
        past.unseen = (!reached && !never).then_some((round.at.0, end));
        past.parts.push(done(round));
        if reached {
            return past;
        }
    }
    let mut way = follow((first, until.1), left);
    let older = past.parts.iter().flat_map(|part| &part.found);
    let listed: HashSet<u64> = older.map(|found| found.address).collect();
    way.found.retain(|found| !listed.contains(&found.address));
    if way.end == Ending::Reached {
        past.parts.push(done(way));
    } else {
        let unseen = past.unseen.take();
        past.unseen = unseen.or_else(|| Some((way.at.0, way.end.clone())));
        past.parts.push(way.part(Stage::Unknown));
    }
    past
}

/// A part of history. On the way to its first TRB there may be slots that were never written.
fn done(way: Way) -> Part {
    let first = way.found.first();
    let from = first.map_or(way.from, |trb| (trb.address, cycle_bit(&trb.trb)));
    let stage = Stage::Done;
    Part {
        from,
        ..way.part(stage)
    }
}

/// Whether nothing but a cycle bit is set: memory as it is before anybody writes a TRB there.
fn blank(trb: &RawTrbBuffer) -> bool {
    let mut trb = *trb;
    trb[12] &= !1;
    trb == [0; 16]
}
