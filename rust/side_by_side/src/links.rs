//! Memories with Links to chase through.

use crate::random::Random;

const LINK: u8 = 6;
pub const TOGGLE: u8 = 0x02;
pub const COMPLETION: u8 = 0x20;

/// A Link with the flags of its byte 12, the cycle bit among them.
pub fn link(pointer: u64, flags: u8) -> [u8; 16] {
    let mut trb = [0; 16];
    trb[..8].copy_from_slice(&pointer.to_le_bytes());
    trb[12] = flags;
    trb[13] = LINK << 2;
    trb
}

/// A Normal TRB that can be told from others.
pub fn other(mark: u8, cycle: bool) -> [u8; 16] {
    [
        mark,
        1,
        2,
        3,
        4,
        5,
        6,
        7,
        8,
        9,
        10,
        11,
        u8::from(cycle),
        1 << 2,
        14,
        15,
    ]
}

/// Any TRB, mostly a Link to one of so many slots, now and then to just behind them or just before.
pub fn any(random: &mut Random, slots: u64) -> [u8; 16] {
    let mut trb = random.trb();
    if !random.once_in(4) {
        let far = u64::from(random.once_in(40));
        let before = 16 * u64::from(random.once_in(40));
        let bits = random.below(16) * u64::from(random.once_in(3));
        let pointer = (16 * random.below(slots + far) + bits).wrapping_sub(before);
        trb[..8].copy_from_slice(&pointer.to_le_bytes());
        trb[13] = LINK << 2 | trb[13] & 3;
        trb[12] &= !TOGGLE | (TOGGLE * u8::from(random.once_in(4)));
    }
    trb
}

/// The same slots in memory that begins so much higher: the pointer of each Link goes with them.
pub fn move_by(bytes: &mut [u8], amount: u64) {
    for slot in bytes.chunks_exact_mut(16) {
        if slot[13] >> 2 == LINK {
            let (pointer, _) = slot.split_first_chunk_mut().expect("eight bytes");
            *pointer = u64::from_le_bytes(*pointer)
                .wrapping_add(amount)
                .to_le_bytes();
        }
    }
}

/// A memory with a chain of Links, each fresh when it is come to, and where the chain begins.
pub fn chain(random: &mut Random, links: u64, mut state: bool) -> (Vec<u8>, u64) {
    let mut slots: Vec<u64> = (0..=links).map(|slot| 16 * slot).collect();
    for last in (1..slots.len()).rev() {
        slots.swap(last, random.below(last as u64 + 1) as usize);
    }
    let toggles = random.pick(&[1, 2, 1000]);
    let noted = random.pick(&[1, 300]);
    let mut bytes = vec![0; 16 * slots.len()];
    for pair in slots.windows(2) {
        let bits = random.below(16) * u64::from(random.once_in(noted));
        let completion = COMPLETION * u8::from(random.once_in(noted));
        let toggle = random.once_in(toggles);
        let flags = (TOGGLE * u8::from(toggle)) | completion | u8::from(state);
        bytes[pair[0] as usize..][..16].copy_from_slice(&link(pair[1] | bits, flags));
        state ^= toggle;
    }
    let end = match random.below(3) {
        0 => other(1, state),
        1 => other(2, !state),
        _ => link(slots[0], u8::from(state)),
    };
    bytes[slots[links as usize] as usize..][..16].copy_from_slice(&end);
    (bytes, slots[0])
}
