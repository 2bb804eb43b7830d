//! Event rings: configured, filled, refused and wrapped.

use super::super::events::{self, Event};
use super::super::{numbers, Sample};
use super::memory;
use crate::random::Random;
use original::device::bus::{BusDeviceRef, Memory};
use original::device::xhci::event_ring::{EventRing, State};
use std::panic::{catch_unwind, resume_unwind, AssertUnwindSafe};

pub fn record(sample: &mut Sample, random: &mut Random) {
    let hook = std::panic::take_hook();
    std::panic::set_hook(Box::new(|_| {}));
    for sizes in small() {
        around(&mut Ring::configured(sample, random, &sizes), random);
    }
    let sixteen: Vec<u32> = (0..16).map(|n| 1 + n % 3).collect();
    around(&mut Ring::configured(sample, random, &sixteen), random);
    largest(&mut Ring::configured(sample, random, &[4096]), random);
    std::panic::set_hook(hook);
}

/// All tables of one to three segments of one to three slots.
fn small() -> Vec<Vec<u32>> {
    let one: Vec<Vec<u32>> = (1..=3).map(|size| vec![size]).collect();
    let longer = |tables: &[Vec<u32>]| -> Vec<Vec<u32>> {
        let with = |table: &Vec<u32>| (1..=3).map(|size| [&table[..], &[size]].concat()).collect();
        tables.iter().flat_map::<Vec<_>, _>(with).collect()
    };
    let two = longer(&one);
    let three = longer(&two);
    [one, two, three].concat()
}

/// The original's ring on a table, and the sample to which its answers go.
struct Ring<'a> {
    sample: &'a mut Sample,
    bus: BusDeviceRef,
    ring: EventRing,
    table: u64,
    entries: u16,
    /// The slots' addresses, in the order in which the ring walks.
    slots: Vec<u64>,
}

impl<'a> Ring<'a> {
    /// Segments in descending order with gaps of 64 bytes, behind them the table; the memory ends with it. Every byte that is no entry's
    /// is random, but for a large memory.
    fn configured(sample: &'a mut Sample, random: &mut Random, sizes: &[u32]) -> Self {
        let mut base = 0x40;
        let mut segments: Vec<(u64, u32)> = Vec::new();
        for &size in sizes.iter().rev() {
            segments.insert(0, (base, size));
            base = (base + 16 * u64::from(size)).next_multiple_of(64) + 64;
        }
        let (table, slots) = (base, slots(&segments));
        let bytes = memory_with(random, table, &segments);
        memory(sample, &bytes);
        let bus = Memory::new(bytes);
        let entries = sizes.len() as u16;
        let mut ring = EventRing::new(bus.clone());
        ring.configure(table, entries);
        let answer = numbers([0]) + &state(ring.state());
        sample.case('G', &numbers([table, entries.into()]), &answer);
        Self {
            sample,
            bus,
            ring,
            table,
            entries,
            slots,
        }
    }

    /// Adds an event, and answers whether it was accepted.
    fn add(&mut self, event: Event, report: u64) -> bool {
        let (input, answer, accepted) = self.added(event, report);
        self.sample.case('A', &input, &answer);
        accepted
    }

    /// Adds an event whose answer is recorded with one of its numbers wrong.
    fn add_wrong(&mut self, event: Event, report: u64, which: usize) {
        let (input, answer, _) = self.added(event, report);
        self.sample.wrong('A', &input, &answer, which);
    }

    /// Input and answer as they stand in a line, and whether the event was accepted.
    fn added(&mut self, event: Event, report: u64) -> (String, String, bool) {
        let Event { text, event } = event;
        let (ring, entries, table) = (&mut self.ring, self.entries, self.table);
        let added = catch_unwind(AssertUnwindSafe(|| {
            ring.enqueue(&event, entries, table, report);
        }));
        let refusal = match &added {
            Ok(()) => 0,
            Err(panic) if is_todo(panic.as_ref()) => 7,
            Err(_) => resume_unwind(added.unwrap_err()),
        };
        assert_eq!(self.bus.outside(), 0);
        let sum = numbers([checksum(&self.bus.bytes())]);
        let answer = numbers([refusal]) + &state(self.ring.state()) + &sum;
        (text + &numbers([report]), answer, added.is_ok())
    }
}

fn slots(segments: &[(u64, u32)]) -> Vec<u64> {
    let of_segment = |&(base, size): &(u64, u32)| (0..size).map(move |n| base + 16 * u64::from(n));
    segments.iter().flat_map(of_segment).collect()
}

fn memory_with(random: &mut Random, table: u64, segments: &[(u64, u32)]) -> Vec<u8> {
    let length = table as usize + 16 * segments.len();
    let mut bytes = vec![0; length];
    if length < 0x1000 {
        bytes.fill_with(|| random.next() as u8);
    }
    for (n, (base, size)) in segments.iter().enumerate() {
        let entry = table as usize + 16 * n;
        bytes[entry..entry + 8].copy_from_slice(&base.to_le_bytes());
        bytes[entry + 8..entry + 12].copy_from_slice(&size.to_le_bytes());
    }
    bytes
}

fn state(state: State) -> String {
    numbers([
        state.index.into(),
        state.place,
        state.remaining.into(),
        state.cycle.into(),
    ])
}

/// Whether a panic is that of a full ring.
fn is_todo(panic: &(dyn std::any::Any + Send)) -> bool {
    let text = panic.downcast_ref::<&str>().copied();
    let text = text.or(panic.downcast_ref::<String>().map(String::as_str));
    text.is_some_and(|text| text.starts_with("not yet implemented: signal event ring full"))
}

/// FNV-1a, 64 bits.
fn checksum(bytes: &[u8]) -> u64 {
    let step = |sum: u64, byte: &u8| (sum ^ u64::from(*byte)).wrapping_mul(0x100_0000_01b3);
    bytes.iter().fold(0xcbf2_9ce4_8422_2325, step)
}

/// Fills the ring, then reports slot after slot, two times round, filling it again at each; then reports at random; last, adds that are
/// accepted and whose answer is wrong, in each of its numbers.
fn around(ring: &mut Ring, random: &mut Random) {
    let slots = ring.slots.clone();
    let in_turn = slots.iter().cycle().take(2 * slots.len() + 1);
    for &report in in_turn {
        while ring.add(events::any(random), report) {}
    }
    for n in 0..8 {
        let report = slots[random.below(slots.len() as u64) as usize];
        // No slot is at 0, so that such a report never makes the ring full.
        ring.add(events::any(random), if n % 4 == 0 { 0 } else { report });
    }
    for which in 0..6 {
        ring.add_wrong(events::port(which as u8), 0, which);
    }
}

/// A few events on the ring with the largest segment.
fn largest(ring: &mut Ring, random: &mut Random) {
    let (first, second) = (ring.slots[0], ring.slots[1]);
    for report in [second, first, first] {
        ring.add(events::any(random), report);
    }
}
