//! Chases, and steps of a linked ring.

use super::super::{bytes, numbers, Sample};
use super::memory;
use crate::random::Random;
use original::device::bus::Memory;
use original::device::xhci::linked_ring::LinkedRing;
use original::device::xhci::trb::RawTrbBuffer;

const LINK: u8 = 6;
const NORMAL: u8 = 1;
const CYCLE: u8 = 0x01;
const TOGGLE: u8 = 0x02;
const COMPLETION: u8 = 0x20;

pub fn record(sample: &mut Sample, random: &mut Random) {
    steps(sample, random);
    itself(sample);
    chains(sample);
    boundaries(sample, random);
    at_random(sample, random);
}

fn steps(sample: &mut Sample, random: &mut Random) {
    let bounds = [
        0,
        1,
        15,
        16,
        u64::MAX - 16,
        u64::MAX - 15,
        u64::MAX - 1,
        u64::MAX,
    ];
    let places = bounds.into_iter().chain((0..12).map(|_| random.next()));
    for place in places {
        for cycle in [false, true] {
            let mut ring = LinkedRing::new(Memory::new(vec![]), 0, false);
            ring.set_dequeue_pointer(place, cycle);
            ring.advance();
            let (after, state) = ring.get_dequeue_pointer();
            let input = numbers([place, cycle.into()]);
            sample.case('S', &input, &numbers([after, state.into()]));
        }
    }
}

fn trb(pointer: u64, bits: u8, trb_type: u8) -> RawTrbBuffer {
    let mut trb = [0; 16];
    trb[..8].copy_from_slice(&pointer.to_le_bytes());
    trb[12] = bits;
    trb[13] = trb_type << 2;
    trb
}

/// A chase, if it is of document 01's domain: no byte outside memory is touched or looked at by either, and no 257th Link, which the
/// original parses and does not follow, has pointer bits cleared.
fn chase(sample: &mut Sample, bytes_of: &[u8], place: u64, cycle: bool) {
    let bus = Memory::new(bytes_of.to_vec());
    let mut ring = LinkedRing::new(bus.clone(), place, cycle);
    original::warnings();
    let found = ring.next_trb();
    let warnings = original::warnings();
    let warned = |text: &str| warnings.iter().any(|warning| warning.contains(text));
    let (after, state) = ring.get_dequeue_pointer();
    // A stale TRB is read by its byte 12 alone.
    let Some(last) = whole(bytes_of, after).filter(|_| bus.outside() == 0) else {
        return;
    };
    let too_many = warned("unreasonable");
    if too_many && last[0] & 0xf != 0 {
        return;
    }
    let kind = if too_many { 2 } else { found.is_some().into() };
    let links = bus.bulk_reads() - u64::from(kind != 0);
    let (address, trb) = found.map_or((0, [0; 16]), |trb| (trb.address, trb.buffer));
    let notes = [links, warned("RsvdZ").into(), warned("IOC").into()];
    let answer = numbers([kind, 0, address, after, state.into()]) + &numbers(notes) + &bytes(&trb);
    sample.case('N', &numbers([place, cycle.into()]), &answer);
}

/// The TRB at an address, if it is whole in memory.
fn whole(memory: &[u8], address: u64) -> Option<&[u8]> {
    let start = usize::try_from(address).ok()?;
    memory.get(start..start.checked_add(16)?)
}

/// A Link to itself; document 01's L1 and L2 are the first two.
fn itself(sample: &mut Sample) {
    for bits in [
        CYCLE,
        CYCLE | TOGGLE,
        CYCLE | COMPLETION,
        TOGGLE | COMPLETION,
    ] {
        for pointer in [0, 1] {
            let link = trb(pointer, bits, LINK);
            memory(sample, &link);
            chase(sample, &link, 0, true);
            chase(sample, &link, 0, false);
        }
    }
}

/// So many Links and a Normal TRB, one behind the other; `link` says which bits a Link has beside its cycle bit, and which its pointer
/// has beside its address. The Links and, if `fresh`, the last TRB are fresh to a reader with state 1 at address 0.
fn chain(links: u64, link: impl Fn(u64) -> (u8, u64), fresh: bool) -> Vec<u8> {
    let mut state = CYCLE;
    let mut memory = Vec::new();
    for n in 0..links {
        let (bits, low) = link(n);
        memory.extend(trb(16 * (n + 1) + low, state | bits, LINK));
        state ^= u8::from(bits & TOGGLE != 0);
    }
    let last = if fresh { state } else { state ^ CYCLE };
    memory.extend(trb(0x1234_5678, last, NORMAL));
    memory
}

/// Chains of links from every number of links that matters.
fn chains(sample: &mut Sample) {
    const LINKS: u64 = 260;
    let alike = |bits, low| move |_| (bits, low);
    let one = |which, bits, low| move |n| if n == which { (bits, low) } else { (0, 0) };
    let third = |n: u64| (if n.is_multiple_of(3) { TOGGLE } else { 0 }, 0);
    let memories = [
        chain(LINKS, alike(0, 0), true),
        chain(LINKS, alike(0, 0), false),
        chain(LINKS, alike(TOGGLE, 0), true),
        chain(LINKS, third, false),
        chain(LINKS, one(200, COMPLETION, 0), true),
        chain(LINKS, one(258, COMPLETION, 0xf), true),
        chain(LINKS, one(256, COMPLETION, 0), true),
    ];
    for bytes in memories {
        memory(sample, &bytes);
        for place in (0..6).chain(198..204).chain(255..=LINKS) {
            chase(sample, &bytes, 16 * place, true);
            chase(sample, &bytes, 16 * place, false);
        }
    }
}

/// Every place of a memory whose length is no multiple of 16, with Links into it.
fn boundaries(sample: &mut Sample, random: &mut Random) {
    for length in [16, 17, 31, 32, 40, 63] {
        let mut bytes: Vec<u8> = (0..length).map(|_| random.next() as u8).collect();
        let end = bytes.len() - 16;
        bytes[end..].copy_from_slice(&trb(end as u64, CYCLE, LINK));
        memory(sample, &bytes);
        for place in 0..=end as u64 {
            chase(sample, &bytes, place, true);
            chase(sample, &bytes, place, false);
        }
    }
}

/// Small memories of Links and others, mostly fresh.
fn at_random(sample: &mut Sample, random: &mut Random) {
    for _ in 0..150 {
        let slots = 2 + random.below(6);
        let bytes: Vec<u8> = (0..slots).flat_map(|_| likely(random, slots)).collect();
        memory(sample, &bytes);
        for place in 0..slots {
            chase(sample, &bytes, 16 * place, true);
            chase(sample, &bytes, 16 * place, false);
        }
    }
}

fn likely(random: &mut Random, slots: u64) -> RawTrbBuffer {
    let mut trb = random.trb();
    let pointer = 16 * random.below(slots) + random.below(8) % 5;
    trb[..8].copy_from_slice(&pointer.to_le_bytes());
    trb[12] = trb[12] & (TOGGLE | COMPLETION) | u8::from(!random.once_in(4));
    if !random.once_in(4) {
        trb[13] = LINK << 2;
    }
    trb
}
