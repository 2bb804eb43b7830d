//! Memories, states, events and reports in which no refusal, one or several are met.

use super::rules::{Window, DOCUMENT_01};
use crate::inputs::any_event;
use crate::random::Random;
use lomvigast::event_ring::RingState;
use lomvigast::trb::EventTrb;

/// Where guest memory begins.
#[derive(Debug, Clone, Copy, PartialEq, Eq)]
pub enum Begins {
    /// As document 01 has it.
    AtZero,
    /// Low, high, and so that memory ends at 2^64 or near it.
    Anywhere,
}

/// Where the addresses of a case are counted from, and where its window begins: there, or just beside it.
#[derive(Debug, Clone, Copy)]
pub struct Origin {
    pub addresses: u64,
    pub start: u64,
}

impl Begins {
    pub fn origin(self, random: &mut Random, length: usize) -> Origin {
        // Memory then ends at 2^64, or with an odd length just before it.
        let last = (length as u64).next_multiple_of(64).wrapping_neg();
        let addresses = match random.below(6) {
            _ if self == Self::AtZero => 0,
            0 => 64 * random.between(1, 5),
            1 => random.next() & !63,
            2 => last.wrapping_sub(64),
            3 => last.wrapping_add(64),
            _ => last,
        };
        let beside = [1, 8, 16, 64, 1_u64.wrapping_neg(), 16_u64.wrapping_neg()];
        let start = match self == Self::Anywhere && random.once_in(6) {
            true => addresses.wrapping_add(random.pick(&beside)),
            false => addresses,
        };
        Origin { addresses, start }
    }
}

/// What a call is given: a ring or reader in some state.
#[derive(Debug, Clone)]
pub struct Case {
    pub origin: Origin,
    pub bytes: Vec<u8>,
    pub state: RingState,
    pub event: EventTrb,
    pub report: u64,
}

impl Case {
    /// Made as if memory began at 0, and then moved: what stood at the end of all addresses stands just below the window.
    pub fn any(random: &mut Random, begins: Begins) -> Self {
        let table = 64 * random.below(3);
        let most = random.pick(&[2, 4, 16]);
        let entries = random.between(1, most) as u16;
        let length = length(random);
        let origin = begins.origin(random, length);
        let bytes = memory(random, length, origin.addresses, table, entries);
        let mut state = RingState::default();
        state.ready = true;
        state.table = table;
        state.entries = entries;
        state.index = random.below(entries.into()) as u16;
        state.place = 16 * random.below(bytes.len() as u64 / 16);
        state.remaining = random.pick(&[1, 1, 1, 2, 3, 4096]);
        state.cycle = random.once_in(2);
        spoil(&mut state, random, bytes.len() as u64);
        state.table = state.table.wrapping_add(origin.addresses);
        state.place = state.place.wrapping_add(origin.addresses);
        let event = any_event(random);
        let mut case = Self {
            origin,
            bytes,
            state,
            event,
            report: 0,
        };
        case.report = case.any_report(random);
        case
    }

    pub fn window(&self) -> Window<'_> {
        Window {
            start: self.origin.start,
            bytes: &self.bytes,
        }
    }

    /// What a configure may be given beside the memory: as the state has it, or another table.
    pub fn table(&self, random: &mut Random) -> (u64, u16) {
        let near = (self.bytes.len() as u64).saturating_sub(16 * random.below(18)) & !63;
        let near = self.origin.addresses.wrapping_add(near);
        let table = random.pick(&[self.state.table, self.state.table, near]);
        (table, self.state.entries)
    }

    /// A report: the slot that makes the ring full, where the ring stands, somewhere, and beside each of these.
    fn any_report(&self, random: &mut Random) -> u64 {
        let full = DOCUMENT_01.slot_after(self.window(), &self.state);
        let full = full.unwrap_or(self.origin.addresses);
        let somewhere = self.origin.addresses.wrapping_add(16 * random.below(0x40));
        let report = random.pick(&[full, full, self.state.place, somewhere]);
        if random.once_in(8) {
            return report | random.pick(&[1, 4, 8]);
        }
        report
    }
}

/// One in so many memories is long enough for a segment of more than 4096 slots.
const LONG: u64 = 100;

/// The memory may end in the table or in a slot.
fn length(random: &mut Random) -> usize {
    let length = random.pick(&[0x100, 0x140, 0x1f8, 0x200, 0x300]);
    match random.once_in(LONG) {
        true => 0x1_0100,
        false => length,
    }
}

/// Any bytes, in them a table so far from the first one, with segments whose addresses are counted from `origin`.
fn memory(random: &mut Random, length: usize, origin: u64, table: u64, entries: u16) -> Vec<u8> {
    let mut bytes = vec![0; length];
    for piece in bytes.chunks_mut(8) {
        let filling = random.next().to_le_bytes();
        piece.copy_from_slice(&filling[..piece.len()]);
    }
    for raw in bytes[table as usize..]
        .chunks_exact_mut(16)
        .take(entries.into())
    {
        let (base, size) = entry(random, length as u64);
        let base = base.wrapping_add(origin);
        raw[..8].copy_from_slice(&base.to_le_bytes());
        raw[8..12].copy_from_slice(&size.to_le_bytes());
    }
    bytes
}

/// Base and size of an entry, two times in three good.
fn entry(random: &mut Random, length: u64) -> (u64, u32) {
    let base = 64 * random.below(length / 64);
    let size = random.between(1, 4) as u32;
    let to_the_end = (length - base) as u32 / 16;
    if length > 0x1_0000 && random.once_in(2) {
        return (0, random.pick(&[4096, 4097]));
    }
    match random.below(12) {
        0 => (base + random.pick(&[1, 8, 16, 32, 48, 63]), size),
        1 => (base, random.pick(&[0, 4097, u32::MAX])),
        2 => (random.pick(&[length & !63, u64::MAX - 63]), size + 3),
        3 => (base, to_the_end + random.below(2) as u32),
        _ => (base, size),
    }
}

/// Each field may be at or beyond its limits, one time in so many.
const SPOILT: u64 = 12;

fn spoil(state: &mut RingState, random: &mut Random, length: u64) {
    let mut now = || random.once_in(SPOILT);
    let [ready, table, far, entries, index, place, away, remaining] = [(); 8].map(|()| now());
    state.ready = !ready;
    if far {
        state.table = random.pick(&[length & !63, u64::MAX - 63, u64::MAX - 127]);
    }
    if table {
        state.table |= random.pick(&[1, 8, 16, 32, 48]);
    }
    if entries {
        state.entries = random.pick(&[0, 1, 16, 17, u16::MAX]);
    }
    if index {
        let count = state.entries;
        let past = [count.wrapping_sub(1), count, count.wrapping_add(1)];
        state.index = random.pick(&past);
    }
    if away {
        state.place = random.pick(&[length & !15, u64::MAX - 15, u64::MAX - 31]);
    }
    if place {
        state.place |= random.pick(&[1, 4, 8, 12]);
    }
    if remaining {
        state.remaining = random.pick(&[0, 4097, u32::MAX]);
    }
}
