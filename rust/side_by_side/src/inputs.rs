//! Tables and events to try things on.

use crate::random::Random;
use lomvigast::trb::{CompletionCode, EventTrb};

/// A segment table and its segments.
#[derive(Debug, Clone)]
pub struct Table {
    /// Where the memory begins that holds it; it is made at 0 and then moved.
    pub start: u64,
    pub base: u64,
    /// Base and size of each segment.
    pub segments: Vec<(u64, u32)>,
    /// How long that memory is.
    pub length: usize,
}

impl Table {
    /// A table and segments of these sizes one behind the other from `start` on, the first at the end where `backwards` is set.
    /// So many of the segments stand before the table.
    pub fn new(start: u64, sizes: &[u32], backwards: bool, before: usize) -> Self {
        let mut next = start;
        let mut place = |slots: u64| {
            let base = next;
            next = (base + 16 * slots).next_multiple_of(64);
            base
        };
        let mut segments: Vec<(u64, u32)> = sizes.iter().map(|size| (0, *size)).collect();
        let mut order: Vec<usize> = (0..sizes.len()).collect();
        if backwards {
            order.reverse();
        }
        let (first, rest) = order.split_at(before);
        let mut put = |n: &usize| segments[*n].0 = place(sizes[*n].into());
        first.iter().for_each(&mut put);
        let base = place(sizes.len() as u64);
        let mut put = |n: &usize| segments[*n].0 = place(sizes[*n].into());
        rest.iter().for_each(&mut put);
        Self {
            start: 0,
            base,
            segments,
            length: next as usize,
        }
    }

    /// Between one and `most` segments of one to `longest` slots, before and behind the table.
    pub fn any(random: &mut Random, most: u64, longest: u64) -> Self {
        let sizes: Vec<u32> = (0..random.between(1, most))
            .map(|_| random.between(1, longest) as u32)
            .collect();
        let before = random.below(sizes.len() as u64 + 1) as usize;
        Self::new(64 * random.below(4), &sizes, random.once_in(2), before)
    }

    /// A table somewhere in a memory of 32 times 64 bytes, with up to six segments anywhere beside it.
    pub fn anywhere(random: &mut Random) -> Self {
        let mut table = Self {
            start: 0,
            base: 64 * random.below(31),
            segments: vec![(0, 0); random.between(1, 6) as usize],
            length: 64 * 32,
        };
        table.scatter(random);
        table
    }

    /// Other segments for the same entries: each in memory and off the table, and over others or not.
    pub fn scatter(&mut self, random: &mut Random) {
        let length = self.length as u64;
        let own = self.base..self.base + 16 * u64::from(self.entries());
        for segment in &mut self.segments {
            *segment = loop {
                let (base, size) = (64 * random.below(length / 64), random.between(1, 6));
                let end = base + 16 * size;
                if end <= length && (end <= own.start || own.end <= base) {
                    break (base, size as u32);
                }
            };
        }
    }

    /// The same table where memory begins at another address, and all its addresses with it.
    pub fn moved_to(&self, start: u64) -> Self {
        let moved = |address: u64| address - self.start + start;
        let segments = self.segments.iter();
        Self {
            start,
            base: moved(self.base),
            segments: segments.map(|(base, size)| (moved(*base), *size)).collect(),
            length: self.length,
        }
    }

    /// How table and segments stand to each other, where it is not the table first and the segments apart.
    pub fn kinds(&self) -> Vec<&'static str> {
        let before = self.segments.iter().filter(|(base, _)| *base < self.base);
        let before = before.count();
        let mut kinds = Vec::new();
        if before == self.segments.len() {
            kinds.push("tables behind their segments");
        } else if before != 0 {
            kinds.push("tables between their segments");
        }
        let mut slots = self.slots();
        slots.sort_unstable();
        if slots.windows(2).any(|pair| pair[0] == pair[1]) {
            kinds.push("tables with segments that overlap");
        }
        kinds
    }

    pub fn entries(&self) -> u16 {
        self.segments.len() as u16
    }

    pub fn write(&self, bytes: &mut [u8]) {
        for (n, (base, size)) in self.segments.iter().enumerate() {
            let entry = &mut bytes[(self.base - self.start) as usize + 16 * n..][..16];
            entry[..8].copy_from_slice(&base.to_le_bytes());
            entry[8..12].copy_from_slice(&size.to_le_bytes());
        }
    }

    /// The address of every slot, in the order in which they are filled.
    pub fn slots(&self) -> Vec<u64> {
        let slots = |(base, size): &(u64, u32)| {
            let base = *base;
            (0..u64::from(*size)).map(move |n| base + 16 * n)
        };
        self.segments.iter().flat_map(slots).collect()
    }
}

/// An address at which so many bytes can begin: a multiple of 64, low, high, or so that they end at 2^64 or just before.
pub fn any_start(random: &mut Random, length: usize) -> u64 {
    let last = u64::MAX - (length as u64).next_multiple_of(64) + 1;
    match random.below(4) {
        0 => 64 * random.between(1, 5),
        1 => random.below(last) & !63,
        2 => last - 64,
        _ => last,
    }
}

/// An event whose fields may be anything of their types, mostly such that it can be written.
pub fn any_event(random: &mut Random) -> EventTrb {
    let code = random.pick(&CompletionCode::ALL);
    let mut length = random.next() as u32 >> 8;
    if random.once_in(16) {
        length = random.next() as u32;
    }
    let pointer = random.next();
    match random.below(3) {
        0 => EventTrb::new_transfer_event_trb(
            pointer,
            length,
            code,
            random.once_in(2),
            random.byte(),
            random.byte(),
        ),
        1 => {
            let mask = if random.once_in(16) { 0 } else { 15 };
            EventTrb::new_command_completion_event_trb(pointer & !mask, length, code, random.byte())
        }
        _ => EventTrb::new_port_status_change_event_trb(random.byte()),
    }
}
