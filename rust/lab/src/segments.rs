//! The segments of an event ring, as its table lists them.

use lomvigast::GuestMemory;

/// The most entries that a table may have.
const MOST_ENTRIES: u16 = 16;

#[derive(Debug, Clone, Copy, PartialEq, Eq)]
pub struct Segment {
    pub base: u64,
    pub size: u32,
}

impl Segment {
    pub fn slots(self) -> impl Iterator<Item = u64> {
        (0..self.size).map(move |number| self.slot(number))
    }

    pub fn slot(self, number: u32) -> u64 {
        self.base + 16 * u64::from(number)
    }

    /// The number of the slot at a place, if one is there.
    pub fn number(self, place: u64) -> Option<u32> {
        let offset = place.checked_sub(self.base)?;
        let number = u32::try_from(offset / 16).ok()?;
        (offset % 16 == 0 && number < self.size).then_some(number)
    }

    /// The slots from one number up to another, if there are any.
    pub fn part(self, from: u32, to: u32) -> Option<Self> {
        let size = to.checked_sub(from).filter(|size| *size > 0)?;
        // Only then: the address behind the last slot may be 2^64.
        let base = self.slot(from);
        Some(Self { base, size })
    }

    pub fn length(self) -> u64 {
        16 * u64::from(self.size)
    }

    /// Whether base and size are such as refusal 5 is not for. Whether it is inside memory is another question.
    pub fn well_formed(self) -> bool {
        self.base.is_multiple_of(64) && (1..=4096).contains(&self.size)
    }

    /// What an entry of a table says, be it allowed or not.
    pub fn said(memory: GuestMemory<'_>, entry: u64) -> Option<Self> {
        let base = memory.read8(entry).ok()?;
        let size = memory.read4(entry.checked_add(8)?).ok()?;
        Some(Self { base, size })
    }
}

/// Each entry of a table, or `None` for one that refusal 1 or 5 is for.
pub fn of_table(memory: GuestMemory<'_>, table: u64, entries: u16) -> Vec<Option<Segment>> {
    let allowed =
        |segment: &Segment| segment.well_formed() && memory.inside(segment.base, segment.length());
    let entries = 0..u64::from(entries.min(MOST_ENTRIES));
    entries
        .map(|n| Segment::said(memory, table.checked_add(16 * n)?).filter(allowed))
        .collect()
}
