//! Event rings.

use super::{blank, past, Ending, Found, Part, Past, Reading, Stage, Way};
use crate::capture::{Capture, Driver, Place};
use crate::segments::{of_table, Segment};
use crate::world::Answer;
use lomvigast::event_ring::EventReader;
use lomvigast::trb::{cycle_bit, RawTrbBuffer};
use lomvigast::Refusal;

/// Reads an event ring, from where the driver stands if that is a slot of its table.
pub fn read(
    capture: &Capture,
    table: u64,
    entries: u16,
    driver: Option<Driver>,
    most: usize,
) -> Reading {
    let first = match configured(capture, table, entries) {
        Ok(first) => first,
        Err(end) => return Reading::new(Past::default(), Vec::new(), end, (table, true)),
    };
    let slots = Slots { capture, first };
    match driver {
        Some(driver) if slots.entries_at(driver.dequeue).len() == 1 => {
            slots.reading(driver.place(), Stage::Pending, most)
        }
        Some(driver) => slots.driverless(Ending::NoSlot(driver.dequeue), most),
        None => slots.driverless(Ending::NoDriver, most),
    }
}

/// A reader at the table's first slot, or why there is none.
fn configured(capture: &Capture, table: u64, entries: u16) -> Result<EventReader, Ending> {
    let mut reader = EventReader::new();
    match reader.configure(capture.memory(), table, entries) {
        Err(refusal @ (Refusal::TableBase | Refusal::TableEntries)) => {
            Err(Ending::Answer(Answer::Refused(refusal, None)))
        }
        answer => match capture.missing(table, 16 * u64::from(entries)) {
            Some(missing) => Err(Ending::Missing(missing)),
            None => match answer {
                Err(refusal) => Err(refused_entry(capture, table, refusal)),
                Ok(()) => Ok(reader),
            },
        },
    }
}

/// The end at a table's entry that was refused. Where the image does not hold its segment nobody knows whether memory does.
fn refused_entry(capture: &Capture, entry: u64, refusal: Refusal) -> Ending {
    let said = Segment::said(capture.memory(), entry);
    let formed = said.filter(|segment| segment.well_formed());
    let missing = formed.and_then(|segment| capture.missing(segment.base, segment.length()));
    missing.map_or(
        Ending::Answer(Answer::Refused(refusal, None)),
        Ending::Missing,
    )
}

struct Slots<'a> {
    capture: &'a Capture,
    /// A reader at the first slot.
    first: EventReader,
}

impl Slots<'_> {
    /// The entries that a place is a slot of, and how many slots remain there.
    fn entries_at(&self, place: u64) -> Vec<(u16, u32)> {
        let state = self.first.state();
        let segments = of_table(self.capture.memory(), state.table, state.entries);
        let slots = (0..).zip(segments).filter_map(|(index, segment)| {
            let segment = segment?;
            Some((index, segment.size - segment.number(place)?))
        });
        slots.collect()
    }

    /// A reader at another slot; if two entries have it, in the first.
    fn reader(&self, (place, cycle): Place) -> Option<EventReader> {
        let mut state = self.first.state();
        (state.index, state.remaining) = *self.entries_at(place).first()?;
        (state.place, state.cycle) = (place, cycle);
        Some(EventReader::from(state))
    }

    /// From a place on, with what lies before it.
    fn reading(&self, from: Place, stage: Stage, most: usize) -> Reading {
        let now = self.way(from, None, most);
        let (end, at) = (now.end.clone(), now.at);
        let left = most - now.found.len();
        let last = end.is_stale().then_some(at);
        let first = self.first.state().place;
        let mut past = past(first, last, from, left, |at, most| {
            self.way(at, Some(from), most)
        });
        if stage == Stage::Unknown {
            let parts = past.parts.into_iter();
            past.parts = parts.map(|part| Part { stage, ..part }).collect();
        }
        Reading::new(past, vec![now.part(stage)], end, at)
    }

    /// All events that stand in the ring, if nobody knows where the driver does.
    fn driverless(&self, end: Ending, most: usize) -> Reading {
        let first = self.first.state().place;
        // The first slot's cycle bit is that of the pass in which it was last written, or will first be.
        let trb = self.capture.memory().read_trb(first).ok();
        let written = trb.filter(|trb| !blank(trb));
        let cycle = written.is_none_or(|trb| cycle_bit(&trb));
        let mut reading = self.reading((first, cycle), Stage::Unknown, most);
        if reading.end.is_stale() {
            reading.end = end;
        }
        reading
    }

    /// Takes events to the end or to a place. On the way to a place slots that were never written are passed over.
    fn way(&self, from: Place, until: Option<Place>, most: usize) -> Way {
        let mut found = Vec::new();
        let mut here = from;
        let Some(mut reader) = self.reader(from) else {
            let end = Ending::NoSlot(from.0);
            return Way {
                from,
                found,
                end,
                at: from,
            };
        };
        let end = loop {
            if until == Some(here) {
                break Ending::Reached;
            }
            let trb = match self.take(&mut reader) {
                Ok(trb) => trb,
                Err(end) => break end,
            };
            let (address, links) = (here.0, 0);
            match () {
                () if until.is_some() && blank(&trb) => {}
                () if blank(&trb) => break Ending::Blank,
                () if found.len() == most => break Ending::Cut,
                () => found.push(Found {
                    address,
                    trb,
                    links,
                }),
            }
            here = (reader.state().place, reader.state().cycle);
        };
        Way {
            from,
            found,
            end,
            at: here,
        }
    }

    fn take(&self, reader: &mut EventReader) -> Result<RawTrbBuffer, Ending> {
        let state = reader.state();
        if let Some(missing) = self.capture.missing(state.place, 16) {
            return Err(Ending::Missing(missing));
        }
        match reader.take(self.capture.memory()) {
            Ok(Some(trb)) => Ok(trb),
            Ok(None) => Err(Ending::Answer(Answer::None(state.place))),
            Err(refusal) => {
                let next = (u64::from(state.index) + 1) % u64::from(state.entries.max(1));
                let entry = state.table.wrapping_add(16 * next);
                Err(refused_entry(self.capture, entry, refusal))
            }
        }
    }
}
