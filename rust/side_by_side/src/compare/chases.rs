//! The link-following reader.

use super::books;
use crate::inputs::any_start;
use crate::links::{any, chain, link, move_by, other, COMPLETION, TOGGLE};
use crate::random::Random;
use crate::tally::Tally;
use lomvigast::linked_ring::{Answer, Chase, LinkedRing};
use lomvigast::trb::RawTrb;
use lomvigast::GuestMemory;
use original::device::bus::{BusDeviceRef, Memory};
use original::device::xhci::linked_ring::LinkedRing as Original;

/// One memory for both. The original's begins at 0, the port's at `start`, with the Links' pointers moved by as much.
struct Stage {
    bus: BusDeviceRef,
    start: u64,
    bytes: Vec<u8>,
}

impl Stage {
    fn new() -> Self {
        Self {
            bus: Memory::new(Vec::new()),
            start: 0,
            bytes: Vec::new(),
        }
    }

    fn fill(&mut self, bytes: &[u8]) {
        self.bus.fill(bytes);
        self.start = 0;
        bytes.clone_into(&mut self.bytes);
    }

    /// The same with the port's memory elsewhere.
    fn fill_at(&mut self, start: u64, bytes: &[u8]) {
        self.fill(bytes);
        self.start = start;
        move_by(&mut self.bytes, start);
    }

    /// Chases from a place, and holds answer, notes, place, state and that the original wrote nothing; the port's memory is lent
    /// to be read.
    fn hold(&self, tally: &mut Tally, place: u64, cycle: bool) {
        let start = self.start;
        let mut port = LinkedRing::new(start.wrapping_add(place), cycle);
        let ours = port.next_trb(GuestMemory::at(start, &self.bytes));
        let port = (ours, port.get_dequeue_pointer());
        let mut original = Original::new(self.bus.clone(), place, cycle);
        let theirs = books::chase(&self.bus, &mut original);
        let end = original.get_dequeue_pointer();
        // Of a stale TRB the original looks at one byte, the port at all sixteen.
        let last = usize::try_from(end.0)
            .ok()
            .and_then(|at| self.bytes.get(at..)?.get(..16));
        let input = (start, place, cycle, &self.bytes);
        let expected = if self.bus.outside() != 0 || last.is_none() {
            tally.outside("a byte to be touched is not in memory: refused with 1 here");
            (books::REFUSED, (place, cycle))
        } else {
            (theirs, end)
        };
        tally.hold(&input, moved(expected, start), port);
        if start == 0 {
            tally.hold(&input, true, self.bus.holds(&self.bytes));
        }
    }

    fn hold_all(&self, tally: &mut Tally, places: impl Iterator<Item = u64>) {
        for place in places {
            self.hold(tally, place, false);
            self.hold(tally, place, true);
        }
    }
}

/// What the port has to come to where its memory begins at `start`.
fn moved((chase, end): (Chase, (u64, bool)), start: u64) -> (Chase, (u64, bool)) {
    let answer = match chase.answer {
        Answer::Trb(RawTrb { address, buffer }) => Answer::Trb(RawTrb {
            address: start.wrapping_add(address),
            buffer,
        }),
        other => other,
    };
    (
        Chase { answer, ..chase },
        (start.wrapping_add(end.0), end.1),
    )
}

/// Every memory of so many slots, each slot any TRB of an alphabet; from each slot, with both states.
///
/// The alphabet: a Link to each slot, with toggle and without, and a Normal TRB, each with both cycle bits; with `notes` also
/// Links with low pointer bits or the completion bit set.
pub fn every_memory(slots: usize, notes: bool) -> Tally {
    let mut tally = Tally::new("chases, every small memory");
    let alphabet = alphabet(slots as u64, notes);
    let mut stage = Stage::new();
    for number in 0..alphabet.len().pow(slots as u32) {
        let mut rest = number;
        let mut bytes = Vec::with_capacity(16 * slots);
        for _ in 0..slots {
            bytes.extend(alphabet[rest % alphabet.len()]);
            rest /= alphabet.len();
        }
        stage.fill(&bytes);
        stage.hold_all(&mut tally, (0..slots as u64).map(|slot| 16 * slot));
    }
    tally
}

fn alphabet(slots: u64, notes: bool) -> Vec<[u8; 16]> {
    let mut alphabet = vec![other(0x81, false), other(0x82, true)];
    let variants: &[(u64, u8)] = if notes {
        &[(0, 0), (8, 0), (0, COMPLETION), (15, COMPLETION)]
    } else {
        &[(0, 0)]
    };
    for slot in 0..slots {
        for flags in [0, 1, TOGGLE, TOGGLE | 1] {
            let links = variants
                .iter()
                .map(|(bits, more)| link(16 * slot | bits, flags | more));
            alphabet.extend(links);
        }
    }
    alphabet
}

/// Few slots, any bytes, unaligned places, and Links that lead just over the end.
pub fn small(random: &mut Random, count: u64) -> Tally {
    let mut tally = Tally::new("chases, small random memories");
    let mut stage = Stage::new();
    for _ in 0..count {
        let slots = random.between(1, 8);
        let bytes: Vec<u8> = (0..slots).flat_map(|_| any(random, slots)).collect();
        let length = bytes.len() as u64 - random.below(16) * u64::from(random.once_in(4));
        stage.fill(&bytes[..length as usize]);
        let unaligned = random.below(16) * u64::from(random.once_in(4));
        stage.hold(
            &mut tally,
            16 * random.below(slots) + unaligned,
            random.once_in(2),
        );
    }
    tally
}

/// 250 to 260 Links one after another, in any order in memory, that are followed by a TRB, a stale one, or the first Link.
pub fn long(random: &mut Random, count: u64) -> Tally {
    let mut tally = Tally::new("chases of 250 to 260 links");
    let mut stage = Stage::new();
    for _ in 0..count {
        let links = random.between(250, 260);
        let start = random.once_in(2);
        let (bytes, place) = chain(random, links, start);
        stage.fill(&bytes);
        stage.hold(&mut tally, place, start);
    }
    tally
}

/// The port in windows that begin elsewhere, the original on the same bytes at 0. Places are slots, of which it is known what is a
/// Link; they may be just outside.
pub fn in_windows(random: &mut Random, count: u64) -> Tally {
    let mut tally = Tally::new("chases, the port in other windows");
    let mut stage = Stage::new();
    for _ in 0..count {
        let (slots, cycle) = (random.between(1, 8), random.once_in(2));
        let (bytes, place) = if random.once_in(64) {
            let links = random.between(250, 260);
            chain(random, links, cycle)
        } else {
            let trbs = (0..slots).flat_map(|_| any(random, slots)).collect();
            let near = 16 * random.below(slots + 2);
            (trbs, near.wrapping_sub(16 * u64::from(random.once_in(8))))
        };
        stage.fill_at(any_start(random, bytes.len()), &bytes);
        stage.hold(&mut tally, place, cycle);
    }
    tally
}

/// Places at every boundary of memory, by itself and by a Link.
pub fn boundaries() -> Tally {
    let mut tally = Tally::new("chases at memory's boundaries");
    let mut stage = Stage::new();
    for length in 0..=48u64 {
        for fill in [[0; 16], [0xff; 16], other(3, true)] {
            let mut bytes: Vec<u8> = fill.into_iter().cycle().take(length as usize).collect();
            stage.fill(&bytes);
            let ends = (0..=length + 2).chain(u64::MAX - 32..=u64::MAX);
            stage.hold_all(&mut tally, ends.clone());
            for pointer in ends.filter(|_| length >= 16) {
                bytes[..16].copy_from_slice(&link(pointer, 1));
                stage.fill(&bytes);
                stage.hold(&mut tally, 0, true);
            }
        }
    }
    tally
}

/// Advance and set place, at 2^64 too.
pub fn steps(random: &mut Random, count: u64) -> Tally {
    let mut tally = Tally::new("advance and set place");
    let bus = Memory::new(Vec::new());
    let (mut port, mut original) = (LinkedRing::new(0, false), Original::new(bus, 0, false));
    for _ in 0..count {
        let near = u64::MAX - random.below(64);
        let any = random.next();
        let place = random.pick(&[near, near.wrapping_mul(16), any]);
        let cycle = random.once_in(2);
        if random.once_in(4) {
            port.set_dequeue_pointer(place, cycle);
            original.set_dequeue_pointer(place, cycle);
        } else {
            port.advance();
            original.advance();
        }
        let both = (original.get_dequeue_pointer(), port.get_dequeue_pointer());
        tally.hold(&(place, cycle), both.0, both.1);
    }
    tally
}
