//! The event ring.

use super::books;
use crate::inputs::{any_event, any_start, Table};
use crate::random::Random;
use crate::reference;
use crate::tally::Tally;
use lomvigast::event_ring::{EventRing, RingState};
use lomvigast::trb::EventTrb;
use lomvigast::{GuestMemory, GuestMemoryMut, Refusal};
use original::device::bus::{BusDeviceRef, Memory};
use original::device::xhci::event_ring::{EventRing as Original, State};

/// A ring on each side, over one table. The original's memory begins at 0, the port's there or elsewhere, with all addresses moved
/// by as much; the bytes are else the same.
struct Pair {
    table: Table,
    /// The port's.
    moved: Table,
    bus: BusDeviceRef,
    bytes: Vec<u8>,
    original: Original,
    port: EventRing,
}

impl Pair {
    /// Both configured, over memory that is zero, or random outside the table. The port's begins at `start`.
    fn new(tally: &mut Tally, table: Table, start: u64, random: Option<&mut Random>) -> Self {
        let mut bytes = vec![0; table.length];
        if let Some(random) = random {
            bytes.iter_mut().for_each(|byte| *byte = random.byte());
        }
        table.write(&mut bytes);
        let bus = Memory::new(bytes.clone());
        let original = Original::new(bus.clone());
        let port = EventRing::new();
        let moved = table.moved_to(start);
        moved.write(&mut bytes);
        let mut pair = Self {
            table,
            moved,
            bus,
            bytes,
            original,
            port,
        };
        pair.configure(tally);
        pair
    }

    fn configure(&mut self, tally: &mut Tally) {
        let (base, entries) = (self.table.base, self.table.entries());
        self.original.configure(base, entries);
        let memory = GuestMemory::at(self.moved.start, &self.bytes);
        let ours = self.port.configure(memory, self.moved.base, entries);
        tally.hold(&self.moved, self.expected(), (ours, self.port.state()));
    }

    /// What the port has to hold, its call accepted: the original's state, moved, and what it keeps of the table.
    fn expected(&self) -> (Result<(), Refusal>, RingState) {
        let State {
            place,
            remaining,
            index,
            cycle,
        } = self.original.state();
        let mut state = RingState::default();
        state.ready = true;
        state.table = self.moved.base;
        state.entries = self.table.entries();
        state.index = index;
        state.place = self.moved.start.wrapping_add(place);
        state.remaining = remaining;
        state.cycle = cycle;
        (Ok(()), state)
    }

    /// Adds to both; a panic of the original's, at its `todo!`, is refusal 7. The report is the original's.
    fn add(&mut self, tally: &mut Tally, event: &EventTrb, report: u64) {
        let theirs = books::original_event(event);
        let (base, entries) = (self.table.base, self.table.entries());
        let original = &mut self.original;
        let enqueue = || original.enqueue(&theirs, entries, base, report);
        let full = books::unless_panicked(enqueue).is_none();
        let start = self.moved.start;
        let mut memory = GuestMemoryMut::at(start, &mut self.bytes);
        let ours = self
            .port
            .enqueue(&mut memory, event, start.wrapping_add(report));
        let (mut answer, state) = self.expected();
        if full {
            answer = Err(Refusal::Full);
        }
        let input = (&self.moved, event, report);
        tally.hold(&input, (answer, state), (ours, self.port.state()));
    }

    /// Every byte of memory, and that the original stayed inside it.
    fn hold_memory(&self, tally: &mut Tally) {
        let same = match self.moved.start {
            0 => self.bus.holds(&self.bytes),
            _ => {
                let mut expected = self.bus.bytes();
                self.moved.write(&mut expected);
                expected == self.bytes
            }
        };
        let input = (&self.moved, &self.port);
        tally.hold(&input, (true, 0), (same, self.bus.outside()));
    }

    /// Other entries in the same table, for both.
    fn rewrite(&mut self, tally: &mut Tally, random: &mut Random) {
        self.table.scatter(random);
        self.table.write(&mut self.bytes);
        self.bus.fill(&self.bytes);
        self.moved = self.table.moved_to(self.moved.start);
        self.moved.write(&mut self.bytes);
        tally.among("tables rewritten between adds");
        let kinds = self.table.kinds();
        kinds.into_iter().for_each(|kind| tally.among(kind));
    }

    fn reset(&mut self, tally: &mut Tally) {
        self.original.reset();
        self.port.reset();
        let (_, mut empty) = self.expected();
        empty.ready = false;
        empty.table = 0;
        empty.entries = 0;
        empty.place = self.original.state().place;
        tally.hold(&self.moved, empty, self.port.state());
    }
}

/// Every sequence of ten adds and reports on every table of one to three segments of one to three slots. A report moves to
/// the next slot, or to where the ring stands.
pub fn every_sequence(length: usize) -> Tally {
    let mut tally = Tally::new("adds, every short sequence");
    for number in 0..39 {
        let sizes = sizes(number);
        let table = Table::new(0x40, &sizes, number % 2 == 1, 0);
        let mut pair = Pair::new(&mut tally, table, 0, None);
        let slots = pair.table.slots();
        walk(&mut pair, &mut tally, &slots, 0, length);
    }
    tally
}

/// The sizes of one of the 3 + 9 + 27 tables.
fn sizes(number: u32) -> Vec<u32> {
    let (count, mut rest) = match number {
        0..3 => (1, number),
        3..12 => (2, number - 3),
        _ => (3, number - 12),
    };
    let mut next = || {
        let size = rest % 3 + 1;
        rest /= 3;
        size
    };
    (0..count).map(|_| next()).collect()
}

fn walk(pair: &mut Pair, tally: &mut Tally, slots: &[u64], reported: usize, left: usize) {
    if left == 0 {
        return;
    }
    let (bytes, state) = (pair.bytes.clone(), pair.original.state());
    let port = pair.port.clone();
    let event = EventTrb::new_port_status_change_event_trb(left as u8);
    pair.add(tally, &event, slots[reported]);
    pair.hold_memory(tally);
    walk(pair, tally, slots, reported, left - 1);
    pair.bus.fill(&bytes);
    pair.bytes = bytes;
    pair.original.restore(state);
    pair.port = port;
    let at = slots
        .iter()
        .position(|slot| *slot == state.place)
        .unwrap_or(0);
    walk(pair, tally, slots, (reported + 1) % slots.len(), left - 1);
    walk(pair, tally, slots, at, left - 1);
}

/// Random tables, events and reports; now and then a reset and a new configure.
pub fn any(random: &mut Random, rings: u64, most: u64, longest: u64, adds: u64) -> Tally {
    let mut tally = Tally::new("adds, random tables");
    for _ in 0..rings {
        let table = Table::any(random, most, longest);
        table.kinds().into_iter().for_each(|kind| tally.among(kind));
        let mut pair = Pair::new(&mut tally, table, 0, Some(random));
        let slots = pair.table.slots();
        for _ in 0..adds {
            step(&mut pair, &mut tally, random, &slots);
        }
        pair.hold_memory(&mut tally);
    }
    tally
}

/// The port in windows that begin elsewhere, the original on the same bytes at 0.
pub fn moved(random: &mut Random, rings: u64, adds: u64) -> Tally {
    let mut tally = Tally::new("adds, the port in other windows");
    for _ in 0..rings {
        let scattered = random.once_in(2);
        let table = match scattered {
            true => Table::anywhere(random),
            false => Table::any(random, 4, 4),
        };
        let start = any_start(random, table.length);
        let mut pair = Pair::new(&mut tally, table, start, Some(random));
        for _ in 0..adds {
            if scattered && random.once_in(8) {
                pair.rewrite(&mut tally, random);
            }
            let slots = pair.table.slots();
            step(&mut pair, &mut tally, random, &slots);
        }
    }
    tally
}

/// Tables and segments anywhere, those over each other too, and entries that are rewritten between adds.
pub fn anywhere(random: &mut Random, rings: u64, adds: u64) -> Tally {
    let mut tally = Tally::new("adds, segments anywhere, rewritten");
    for _ in 0..rings {
        let table = Table::anywhere(random);
        let mut pair = Pair::new(&mut tally, table, 0, Some(random));
        for n in 0..adds {
            if n == 0 || random.once_in(8) {
                pair.rewrite(&mut tally, random);
            }
            let slots = pair.table.slots();
            step(&mut pair, &mut tally, random, &slots);
        }
    }
    tally
}

fn step(pair: &mut Pair, tally: &mut Tally, random: &mut Random, slots: &[u64]) {
    if random.once_in(500) {
        pair.reset(tally);
        pair.configure(tally);
    }
    let event = any_event(random);
    if event.to_bytes(true).is_err() {
        tally.outside("an event that cannot be written: refused with 8 here");
        return;
    }
    let elsewhere = random.next() & !15;
    let slot = random.pick(slots);
    let report = random.pick(&[slot, slot, pair.original.state().place, elsewhere]);
    pair.add(tally, &event, report);
    // All of a long memory only now and then.
    if pair.bytes.len() < 0x2000 || random.once_in(64) {
        pair.hold_memory(tally);
    }
}

/// Configure with what is refused: where the original panics, and where it goes on.
pub fn refused_tables(random: &mut Random, count: u64) -> Tally {
    let mut tally = Tally::new("configure, refused or not");
    for _ in 0..count {
        let mut table = Table::any(random, 3, 3);
        spoil(&mut table, random);
        let mut bytes = vec![0; table.length];
        table.write(&mut bytes);
        let base = table.base + 4 * random.below(16) * u64::from(random.once_in(4));
        let entries = random.pick(&[0, 4, 16, 17, table.entries(), table.entries()]);
        hold_table(&mut tally, &bytes, base, entries);
    }
    tally
}

/// Now and then another base or size in the first entry.
fn spoil(table: &mut Table, random: &mut Random) {
    let (base, size) = table.segments[0];
    let far = table.length as u64 - 64 * random.below(3);
    table.segments[0] = match random.below(8) {
        0 => (base + random.below(64), size),
        1 => (far, size),
        2 => (random.next() & !63, size),
        3 => (base, random.pick(&[0, 4, 5, 4096, 4097, u32::MAX])),
        _ => (base, size),
    };
}

fn hold_table(tally: &mut Tally, bytes: &[u8], base: u64, entries: u16) {
    let mut port = EventRing::new();
    let ours = port.configure(GuestMemory::new(bytes), base, entries);
    let expected = reference::judged(bytes, base, entries);
    let input = (bytes, base, entries);
    tally.hold(&input, expected, reference::number_of(ours));
    let bus = Memory::new(bytes.to_vec());
    let mut original = Original::new(bus.clone());
    let taken = books::unless_panicked(|| original.configure(base, entries)).is_some();
    match expected {
        0 | 2 => tally.hold(&input, taken, ours.is_ok()),
        3 if entries == 0 => tally.hold(&input, taken, false),
        3 => tally.outside("a table of more than 16 entries: 3 here"),
        1 => tally.outside("a table that is not in memory: 1 here"),
        _ => tally.outside("a first segment that is not allowed: 5 here"),
    }
}
