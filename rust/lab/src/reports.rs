//! What a "none" is worth: which reports were a reader's own places, where it has stood since the report before, and how many
//! events were accepted on a table and taken from it. After any other report an event may be written over that was not taken.

use std::collections::{BTreeMap, VecDeque};

#[derive(Default)]
pub struct Reports {
    rings: BTreeMap<String, Ring>,
    /// By a table's base.
    tables: BTreeMap<u64, Table>,
}

/// How many events were accepted on a table since its segments were zero, and how many each reader has taken since it began.
#[derive(Default)]
struct Table {
    accepted: u64,
    taken: BTreeMap<String, u64>,
}

/// Why a "none" may be one although events wait.
#[derive(Debug, Clone, Copy, PartialEq, Eq)]
pub struct Doubt {
    /// A report that was not the reader's own.
    pub report: Option<u64>,
    /// How many events were accepted on its table, and how many it has taken.
    pub accepted: u64,
    pub taken: u64,
}

/// A ring, and the readers on its table.
struct Ring {
    /// The last report, if it is known: before the first one, the first slot.
    last: Option<u64>,
    /// A report that came while no reader stood there.
    stray: Option<u64>,
    readers: BTreeMap<String, Reader>,
}

struct Reader {
    /// Where it has stood since its last own report, that place first.
    stood: VecDeque<u64>,
    /// A report that was not its own.
    foreign: Option<u64>,
}

/// Whose report it was not.
#[derive(Debug, Clone, PartialEq, Eq)]
pub enum Foreign {
    /// There is no reader on the ring's table.
    NoReader,
    /// These readers never stood there.
    Readers(Vec<String>),
}

impl Reports {
    /// A ring begins, with the report that the driver makes first.
    pub fn ring(&mut self, name: &str, first: Option<u64>) {
        let ring = Ring {
            last: first,
            stray: None,
            readers: BTreeMap::new(),
        };
        self.rings.insert(name.to_owned(), ring);
    }

    pub fn forget_ring(&mut self, name: &str) {
        self.rings.remove(name);
    }

    pub fn forget_reader(&mut self, name: &str) {
        for ring in self.rings.values_mut() {
            ring.readers.remove(name);
        }
    }

    /// A reader begins at a place of a ring. One that goes on from a state is believed to have made the last report.
    pub fn reader(&mut self, ring: &str, name: &str, place: u64, goes_on: bool) {
        let Some(ring) = self.rings.get_mut(ring) else {
            return;
        };
        let elsewhere = ring.last.filter(|last| *last != place);
        let (before, foreign) = match goes_on {
            true => (elsewhere, ring.stray),
            false => (None, ring.stray.or(elsewhere)),
        };
        let stood = before.into_iter().chain([place]).collect();
        let reader = Reader { stood, foreign };
        ring.readers.insert(name.to_owned(), reader);
    }

    /// A reader has moved on to a place.
    pub fn moved(&mut self, name: &str, place: u64) {
        let rings = self.rings.values_mut();
        for reader in rings.filter_map(|ring| ring.readers.get_mut(name)) {
            reader.stood.push_back(place);
        }
    }

    /// A ring believed a report.
    pub fn reported(&mut self, ring: &str, place: u64) -> Option<Foreign> {
        let ring = self.rings.get_mut(ring)?;
        if ring.readers.is_empty() {
            let stray = ring.last.is_some_and(|last| last != place);
            ring.stray = ring.stray.or(stray.then_some(place));
            return stray.then_some(Foreign::NoReader);
        }
        ring.last = Some(place);
        let mut foreign = Vec::new();
        for (name, reader) in &mut ring.readers {
            if !reader.owns(place) {
                reader.foreign = Some(place);
                foreign.push(name.clone());
            }
        }
        (!foreign.is_empty()).then_some(Foreign::Readers(foreign))
    }

    /// A table's segments are zero, and a ring begins on it: what was before is over.
    pub fn zeroed(&mut self, table: u64) {
        self.tables.insert(table, Table::default());
    }

    pub fn accepted(&mut self, table: u64) {
        self.tables.entry(table).or_default().accepted += 1;
    }

    /// A reader begins to take from a table, or goes on.
    pub fn begins(&mut self, reader: &str, table: u64, goes_on: bool) {
        let taken = &mut self.tables.entry(table).or_default().taken;
        let count = taken.entry(reader.to_owned()).or_default();
        *count = if goes_on { *count } else { 0 };
    }

    pub fn took(&mut self, reader: &str, table: u64) {
        let taken = &mut self.tables.entry(table).or_default().taken;
        *taken.entry(reader.to_owned()).or_default() += 1;
    }

    /// What speaks against a reader's "none".
    pub fn doubt(&self, reader: &str, table: u64) -> Option<Doubt> {
        let rings = self.rings.values();
        let mut readers = rings.filter_map(|ring| ring.readers.get(reader));
        let report = readers.find_map(|reader| reader.foreign);
        let table = self.tables.get(&table);
        let accepted = table.map_or(0, |table| table.accepted);
        let taken = table.and_then(|table| table.taken.get(reader).copied());
        let taken = taken.unwrap_or(0);
        (report.is_some() || taken < accepted).then_some(Doubt {
            report,
            accepted,
            taken,
        })
    }
}

impl Reader {
    /// Whether it has stood at a place since its last own report; then that is its last.
    fn owns(&mut self, place: u64) -> bool {
        let at = self.stood.iter().position(|stood| *stood == place);
        self.stood.drain(..at.unwrap_or(0));
        at.is_some()
    }
}
