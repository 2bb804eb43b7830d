//! What has become of each slot of each event ring, as a script goes on.

use crate::run::Step;
use crate::script::{Command, MemoryCall, ReaderCall, RingCall};
use crate::segments::{of_table, Segment};
use crate::world::{Answer, World};
use lomvigast::event_ring::RingState;
use lomvigast::GuestMemory;
use std::collections::{BTreeMap, HashMap};

#[derive(Debug, Clone, Copy, PartialEq, Eq)]
pub enum Use {
    /// Never used since the ring was configured.
    Free,
    /// Holds an event that no reader on this table has taken.
    Accepted,
    /// Holds an event that was taken and not reported.
    Taken,
    /// Held an event that was taken and reported: may be used again.
    Reported,
}

impl Use {
    /// In the order of the cases, so that a use is its own place here.
    pub const ALL: [Self; 4] = [Self::Free, Self::Accepted, Self::Taken, Self::Reported];
}

/// A ring that is configured, and what is known of its slots.
pub struct Tracked {
    table: u64,
    entries: u16,
    /// As the table says now; the ring reads an entry when it comes to it.
    pub segments: Vec<Option<Segment>>,
    /// The driver's last report.
    pub report: Option<u64>,
    /// The last one that was a place where a reader had come to.
    own: Option<u64>,
    uses: HashMap<u64, Use>,
}

impl Tracked {
    fn new(state: &RingState, memory: GuestMemory<'_>, report: Option<u64>) -> Self {
        let mut tracked = Self {
            table: state.table,
            entries: state.entries,
            segments: Vec::new(),
            report,
            own: report,
            uses: HashMap::new(),
        };
        tracked.read_table(memory);
        tracked
    }

    fn read_table(&mut self, memory: GuestMemory<'_>) {
        self.segments = of_table(memory, self.table, self.entries);
    }

    pub fn used(&self, slot: u64) -> Use {
        self.uses.get(&slot).copied().unwrap_or(Use::Free)
    }

    /// How many of these slots are what.
    pub fn counts(&self, slots: impl Iterator<Item = u64>) -> [(Use, usize); 4] {
        let mut counts = Use::ALL.map(|used| (used, 0));
        for slot in slots {
            counts[self.used(slot) as usize].1 += 1;
        }
        counts
    }

    /// All slots, in the ring's order.
    pub fn slots(&self) -> impl Iterator<Item = u64> + '_ {
        self.segments
            .iter()
            .flatten()
            .flat_map(|segment| segment.slots())
    }

    /// Whether a reader goes over this ring's segments.
    pub fn read_by(&self, reader: &RingState) -> bool {
        reader.ready && (reader.table, reader.entries) == (self.table, self.entries)
    }

    /// The driver reports a place: what was taken between the last report and this one is reported.
    fn reported(&mut self, place: u64) {
        let order: Vec<u64> = self.slots().collect();
        let at = |place| order.iter().position(|&slot| slot == place);
        if let (Some(from), Some(to)) = (self.own.and_then(at), at(place)) {
            let passed = (to + order.len() - from) % order.len();
            for slot in order.iter().cycle().skip(from).take(passed) {
                self.turn(*slot, Use::Taken, Use::Reported);
            }
        }
        (self.report, self.own) = (Some(place), Some(place));
    }

    fn turn(&mut self, slot: u64, from: Use, to: Use) {
        if let Some(used) = self.uses.get_mut(&slot).filter(|used| **used == from) {
            *used = to;
        }
    }
}

#[derive(Default)]
pub struct Track {
    rings: BTreeMap<String, Tracked>,
}

impl Track {
    pub fn ring(&self, name: &str) -> Option<&Tracked> {
        self.rings.get(name)
    }

    /// Heeds a command that was done.
    pub fn step(&mut self, step: &Step<'_>) {
        for ring in self.rings.values_mut() {
            ring.read_table(step.world.memory());
        }
        match step.command {
            Command::Ring(name, call) => self.on_ring(name, call, step),
            Command::Reader(name, ReaderCall::Take) => self.on_take(name, step),
            // Other memory, all 0: what the slots held is gone.
            Command::Memory(MemoryCall::New(..)) => {
                self.rings.values_mut().for_each(|ring| ring.uses.clear());
            }
            _ => {}
        }
    }

    fn on_ring(&mut self, name: &str, call: &RingCall, step: &Step<'_>) {
        let memory = step.world.memory();
        match (call, step.answer) {
            (RingCall::Configure(..), Answer::Configured(state)) => {
                // The driver's first report is the first slot.
                let tracked = Tracked::new(state, memory, Some(state.place));
                self.rings.insert(name.to_owned(), tracked);
            }
            (RingCall::FromState(_), Answer::State(state)) if state.ready => {
                let tracked = Tracked::new(state, memory, None);
                self.rings.insert(name.to_owned(), tracked);
            }
            (RingCall::New | RingCall::Reset | RingCall::FromState(_), _) => {
                self.rings.remove(name);
            }
            (RingCall::Add(report, _), answer) => self.on_add(name, *report, answer),
            _ => {}
        }
    }

    fn on_add(&mut self, name: &str, report: u64, answer: &Answer) {
        let Some(ring) = self.rings.get_mut(name) else {
            return;
        };
        // A refused add believes no report.
        if let Answer::Accepted(accepted) = answer {
            match accepted.foreign {
                None => ring.reported(report),
                // Nobody came there, so nothing that was taken is reported by it.
                Some(_) => ring.report = Some(report),
            }
            ring.uses.insert(accepted.slot, Use::Accepted);
        }
    }

    fn on_take(&mut self, name: &str, step: &Step<'_>) {
        let (Answer::Taken(slot, _), Some(reader)) = (step.answer, step.world.reader(name)) else {
            return;
        };
        for ring in self.rings.values_mut().filter(|ring| ring.read_by(&reader)) {
            ring.turn(*slot, Use::Accepted, Use::Taken);
        }
    }
}

/// The readers that go over a ring's segments, by name.
pub fn readers<'a>(
    ring: &'a Tracked,
    world: &'a World,
) -> impl Iterator<Item = (&'a str, RingState)> {
    world.readers().filter(|(_, reader)| ring.read_by(reader))
}

#[cfg(test)]
mod tests {
    use super::*;
    use crate::run;

    /// The letters of all slots of ring `r` after each command but the first ones.
    fn uses(script: &str) -> String {
        let mut track = Track::default();
        let mut all = String::new();
        run::each(&mut script.as_bytes(), &mut |step| {
            track.step(step);
            let letter = |used| match used {
                Use::Free => 'F',
                Use::Accepted => 'A',
                Use::Taken => 'T',
                Use::Reported => 'R',
            };
            if let Some(ring) = track.ring("r") {
                all.extend(ring.slots().map(|slot| letter(ring.used(slot))));
                all.push(' ');
            }
            Ok(())
        })
        .expect("the script can be read");
        all
    }

    /// Two segments of two slots: 0x40, 0x50 and 0x80, 0x90.
    const START: &str = "memory 0x100\npoke 0 4000000000000000 02\npoke 16 8000000000000000 02\n\
        reader d new\nreader d configure 0 2\nring r new\nring r configure 0 2\n";

    #[test]
    fn a_slot_goes_from_free_to_reported_and_is_used_again() {
        let script = "ring r add 0x40 port=1\nring r add 0x40 port=2\nring r add 0x40 port=3\n\
            reader d take\nreader d take\nring r add 0x40 port=4\nring r add 0x80 port=4\n\
            ring r add 0x80 port=5\nring r add 0x33 port=6\nring r reset\n";
        assert_eq!(
            uses(&format!("{START}{script}")),
            "FFFF AFFF AAFF AAAF TAAF TTAF TTAF RRAA ARAA ARAA "
        );
    }

    #[test]
    fn a_report_past_what_was_taken_reports_nothing() {
        let script = "ring r add 0x40 port=1\nring r add 0x40 port=2\nreader d take\nring r add 0x80 port=3\n";
        assert_eq!(
            uses(&format!("{START}{script}")),
            "FFFF AFFF AAFF TAFF TAAF "
        );
    }

    #[test]
    fn a_reader_on_another_table_takes_nothing_from_this_one() {
        let script =
            "reader e new\nreader e configure 0 1\nring r add 0x40 port=1\nreader e take\n";
        assert_eq!(
            uses(&format!("{START}{script}")),
            "FFFF FFFF FFFF AFFF AFFF "
        );
    }

    #[test]
    fn entries_that_are_not_allowed_have_no_slots() {
        let script = "memory 0x100\npoke 0 4000000000000000 02\npoke 16 8100000000000000 02\n\
            ring r new\nring r configure 0 2\n";
        assert_eq!(uses(script), "FF ");
        let wild = "memory 0\nring r from_state ready=1 table=0xffffffffffffffff entries=65535";
        assert_eq!(uses(wild), " ");
    }

    #[test]
    fn a_table_that_is_mended_later_and_memory_that_is_new() {
        let script = "memory 0x100\npoke 0 4000000000000000 01\npoke 16 8100000000000000 01\n\
            ring r new\nring r configure 0 2\npoke 16 80\nring r add 0x40 port=1\nmemory 0x100\n\
            poke 0 4000000000000000 01\n";
        assert_eq!(uses(script), "F FF AF  F ");
    }
}
