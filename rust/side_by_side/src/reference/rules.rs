//! Document 01's refusals and answers, and R-5's window, written down from their text with no other code of ours: bytes and
//! numbers go in.

use crate::schedules::fits;
use lomvigast::event_ring::RingState;
use lomvigast::linked_ring::{Answer, Chase, Notes};
use lomvigast::trb::{EventTrb, RawTrb, RawTrbBuffer};
use lomvigast::Refusal;
use std::ops::RangeInclusive;

/// Guest memory: bytes, and the address of the first.
#[derive(Debug, Clone, Copy)]
pub struct Window<'a> {
    pub start: u64,
    pub bytes: &'a [u8],
}

/// Of a window's start and length, an address and a number of bytes: how far from the window's first byte these are, if they
/// are all inside. The numbers do not wrap.
pub type Inside = fn(u128, u128, u128, u128) -> Option<u128>;

pub const INSIDE: Inside = |start, length, address, count| {
    let inside =
        address >= start && address + count <= 1 << 64 && address - start + count <= length;
    inside.then(|| address - start)
};

/// What of the text is a number or an order.
#[derive(Clone)]
pub struct Rules {
    /// Refusal 1: which bytes are inside.
    pub inside: Inside,
    /// Where the slot after a place is, while slots remain.
    pub step: fn(u64) -> u64,
    /// Refusal 2: a table's base is a multiple of it.
    pub base: u64,
    /// Refusal 3: how many entries a table has.
    pub count: RangeInclusive<u16>,
    /// Refusal 4: the limits of a ring's state.
    pub entries: RangeInclusive<u16>,
    pub index: fn(u16, u16) -> bool,
    pub remaining: RangeInclusive<u32>,
    pub table: u64,
    pub place: u64,
    /// Refusal 5: an entry's base and size, and which segments are inside.
    pub segment: u64,
    pub size: RangeInclusive<u32>,
    pub whole: Inside,
    /// Refusal 6: a report is a multiple of it.
    pub report: u64,
    /// How many links are followed, and of which of them the notes are.
    pub links: usize,
    pub noted: fn(&[RawTrbBuffer]) -> &[RawTrbBuffer],
    /// The orders of the refusals.
    pub configuring: &'static [u8],
    pub adding: &'static [u8],
    pub taking: &'static [u8],
}

pub const DOCUMENT_01: Rules = Rules {
    inside: INSIDE,
    step: |place| place.wrapping_add(16),
    base: 64,
    count: 1..=16,
    entries: 1..=16,
    index: |index, entries| index < entries,
    remaining: 1..=4096,
    table: 64,
    place: 16,
    segment: 64,
    size: 1..=4096,
    whole: INSIDE,
    report: 16,
    links: 256,
    noted: |followed| followed,
    configuring: &[2, 3, 1, 5],
    adding: &[8, 4, 6, 1, 5, 7],
    taking: &[4, 1, 5],
};

/// A TRB that can be told from others.
pub const WRITTEN: RawTrbBuffer = [1, 2, 3, 4, 5, 6, 7, 8, 9, 10, 11, 12, 13, 14, 15, 16];

/// Which refusals' words are true of an input, by their numbers.
pub type Met = [bool; 14];

/// The first of an order that is met, or 0.
fn first(order: &[u8], met: &Met) -> u8 {
    let is_met = |number: &u8| met[usize::from(*number)];
    order.iter().copied().find(is_met).unwrap_or(0)
}

pub fn little(bytes: &[u8]) -> u64 {
    let with = |number: u64, byte: &u8| (number << 8) | u64::from(*byte);
    bytes.iter().rev().fold(0, with)
}

struct Entry {
    index: u16,
    base: u64,
    size: u32,
}

/// An event's bytes, those not named 0.
fn written(event: &EventTrb, cycle: bool) -> RawTrbBuffer {
    let mut trb = [0; 16];
    trb[12] = u8::from(cycle);
    match event {
        EventTrb::Transfer(t) => {
            trb[..8].copy_from_slice(&t.trb_pointer.to_le_bytes());
            trb[8..11].copy_from_slice(&t.trb_transfer_length.to_le_bytes()[..3]);
            trb[11] = t.completion_code as u8;
            trb[12] |= 0x04 * u8::from(t.event_data);
            trb[13..].copy_from_slice(&[32 << 2, t.endpoint_id, t.slot_id]);
        }
        EventTrb::CommandCompletion(t) => {
            trb[..8].copy_from_slice(&t.command_trb_pointer.to_le_bytes());
            trb[8..11].copy_from_slice(&t.command_completion_parameter.to_le_bytes()[..3]);
            trb[11] = t.completion_code as u8;
            trb[13..].copy_from_slice(&[33 << 2, 0, t.slot_id]);
        }
        EventTrb::PortStatusChange(t) => {
            trb[3] = t.port_id;
            trb[11] = 1;
            trb[13] = 34 << 2;
        }
        other => panic!("no bytes are known here of {other:?}"),
    }
    trb
}

impl Rules {
    /// How far from the first byte so many bytes are, if all are in memory. No sum wraps.
    pub fn offset(&self, window: Window<'_>, address: u128, length: u64) -> Option<usize> {
        let (start, held) = (window.start.into(), window.bytes.len() as u128);
        let offset = (self.inside)(start, held, address, length.into())?;
        usize::try_from(offset).ok()
    }

    pub fn part<'a>(&self, window: Window<'a>, address: u128, length: usize) -> Option<&'a [u8]> {
        let offset = self.offset(window, address, length as u64)?;
        window.bytes.get(offset..)?.get(..length)
    }

    pub fn trb_at(&self, window: Window<'_>, address: u64) -> Option<RawTrbBuffer> {
        self.part(window, address.into(), 16)?.try_into().ok()
    }

    /// Writes [`WRITTEN`], or nothing.
    pub fn write(&self, start: u64, bytes: &mut [u8], address: u64) {
        let offset = self.offset(Window { start, bytes }, address.into(), 16);
        let slot = offset.and_then(|offset| bytes.get_mut(offset..)?.get_mut(..16));
        if let Some(slot) = slot {
            slot.copy_from_slice(&WRITTEN);
        }
    }

    /// An entry of a table, if all of it is in memory.
    fn entry(&self, window: Window<'_>, table: u64, index: u16) -> Option<Entry> {
        let raw = self.part(window, u128::from(table) + 16 * u128::from(index), 16)?;
        Some(Entry {
            index,
            base: little(&raw[..8]),
            size: little(&raw[8..12]) as u32,
        })
    }

    /// The entry after the present one: entry 0 after the last.
    fn next_entry(&self, window: Window<'_>, state: &RingState) -> Option<Entry> {
        let next = state.index.wrapping_add(1);
        let index = if next == state.entries { 0 } else { next };
        self.entry(window, state.table, index)
    }

    /// The slot after the present one, if it is known.
    pub fn slot_after(&self, window: Window<'_>, state: &RingState) -> Option<u64> {
        match state.remaining {
            1 => Some(self.next_entry(window, state)?.base),
            _ => Some((self.step)(state.place)),
        }
    }

    /// One slot on; `next` is the entry that is entered, if one slot remained.
    fn moved(&self, state: &RingState, next: Option<Entry>) -> RingState {
        let mut moved = *state;
        match next {
            Some(entry) => {
                moved.index = entry.index;
                moved.place = entry.base;
                moved.remaining = entry.size;
                moved.cycle ^= entry.index == 0;
            }
            None => {
                moved.place = (self.step)(moved.place);
                moved.remaining = moved.remaining.wrapping_sub(1);
            }
        }
        moved
    }

    fn broken(&self, state: &RingState) -> bool {
        !(state.ready
            && self.entries.contains(&state.entries)
            && (self.index)(state.index, state.entries)
            && self.remaining.contains(&state.remaining)
            && state.table.is_multiple_of(self.table)
            && state.place.is_multiple_of(self.place))
    }

    fn bad(&self, window: Window<'_>, entry: &Entry) -> bool {
        let (start, held) = (window.start.into(), window.bytes.len() as u128);
        let length = 16 * u128::from(entry.size);
        let whole = (self.whole)(start, held, entry.base.into(), length);
        !entry.base.is_multiple_of(self.segment)
            || !self.size.contains(&entry.size)
            || whole.is_none()
    }

    /// Each of these three answers a number, 0 for accepted, and what was met; the state, and in `add` the bytes, are then as they
    /// are left.
    pub fn configure(
        &self,
        window: Window<'_>,
        state: &mut RingState,
        table: u64,
        entries: u16,
    ) -> (u8, Met) {
        let mut met = [false; 14];
        let entry = self.entry(window, table, 0);
        let length = 16 * u64::from(entries);
        met[2] = !table.is_multiple_of(self.base);
        met[3] = !self.count.contains(&entries);
        met[1] = self.offset(window, table.into(), length).is_none();
        met[5] = entry.as_ref().is_some_and(|entry| self.bad(window, entry));
        let number = first(self.configuring, &met);
        if let (0, Some(entry)) = (number, entry) {
            state.ready = true;
            (state.table, state.entries) = (table, entries);
            (state.index, state.place) = (0, entry.base);
            (state.remaining, state.cycle) = (entry.size, true);
        }
        (number, met)
    }

    pub fn add(
        &self,
        start: u64,
        bytes: &mut [u8],
        state: &mut RingState,
        event: &EventTrb,
        report: u64,
    ) -> (u8, Met) {
        let mut met = [false; 14];
        let window = Window { start, bytes };
        let last = state.remaining == 1;
        let next = self.next_entry(window, state).filter(|_| last);
        met[8] = !fits(event);
        met[4] = self.broken(state);
        met[6] = !report.is_multiple_of(self.report);
        let slot = self.offset(window, state.place.into(), 16);
        met[1] = slot.is_none() || last && next.is_none();
        met[5] = next.as_ref().is_some_and(|entry| self.bad(window, entry));
        met[7] = self.slot_after(window, state) == Some(report);
        let number = first(self.adding, &met);
        if let (0, Some(slot)) = (number, slot) {
            let trb = written(event, state.cycle);
            // Only a wrong rule has slots that are not there.
            if let Some(bytes) = bytes.get_mut(slot..slot.saturating_add(16)) {
                bytes.copy_from_slice(&trb);
            }
            *state = self.moved(state, next);
        }
        (number, met)
    }

    /// Also the bytes that are taken, if any.
    pub fn take(
        &self,
        window: Window<'_>,
        state: &mut RingState,
    ) -> (u8, Option<RawTrbBuffer>, Met) {
        let mut met = [false; 14];
        let slot = self.trb_at(window, state.place);
        let fresh = slot.filter(|trb| (trb[12] & 1 != 0) == state.cycle);
        // The next entry is looked at only if the slot is fresh and last.
        let last = fresh.is_some() && state.remaining == 1;
        let next = self.next_entry(window, state).filter(|_| last);
        met[4] = self.broken(state);
        met[1] = slot.is_none() || last && next.is_none();
        met[5] = next.as_ref().is_some_and(|entry| self.bad(window, entry));
        let number = first(self.taking, &met);
        let taken = fresh.filter(|_| number == 0);
        if taken.is_some() {
            *state = self.moved(state, next);
        }
        (number, taken, met)
    }

    /// The answer with its notes, and place and state afterwards. The links that are followed are kept in a list.
    pub fn chase(&self, window: Window<'_>, place: u64, cycle: bool) -> (Chase, (u64, bool)) {
        let mut followed = Vec::new();
        let (mut at, mut state) = (place, cycle);
        let answer = loop {
            let Some(trb) = self.trb_at(window, at) else {
                let answer = Answer::Refused(Refusal::Outside);
                return (self.noting(answer, &[]), (place, cycle));
            };
            if (trb[12] & 1 != 0) != state {
                break Answer::NothingNew;
            }
            if trb[13] >> 2 != 6 {
                let (address, buffer) = (at, trb);
                break Answer::Trb(RawTrb { address, buffer });
            }
            if followed.len() == self.links {
                break Answer::TooManyLinks;
            }
            followed.push(trb);
            at = little(&trb[..8]) & !15;
            state ^= trb[12] & 0x02 != 0;
        };
        (self.noting(answer, &followed), (at, state))
    }

    fn noting(&self, answer: Answer, followed: &[RawTrbBuffer]) -> Chase {
        let noted = (self.noted)(followed);
        let notes = Notes {
            links: followed.len() as u16,
            cleared: noted.iter().any(|link| link[0] & 15 != 0),
            completion: noted.iter().any(|link| link[12] & 0x20 != 0),
        };
        Chase { answer, notes }
    }
}
