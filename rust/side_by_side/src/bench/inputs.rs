//! What every subject is given.

/// A round is so many calls: one for each input below, once through a ring.
pub const ROUND: usize = 64;

pub type Trb = [u8; 16];

const NORMAL: u8 = 1;
const LINK: u8 = 6;
const COMMANDS: [u8; 11] = [9, 10, 11, 12, 13, 14, 15, 16, 17, 22, 23];
const TRANSFERS: [u8; 7] = [1, 2, 3, 4, 5, 7, 8];
/// Types that both parsers refuse. The optional commands are not among them: the original allocates for these.
const UNKNOWN: [u8; 2] = [0, 40];

/// Sixteen bytes of no order (xorshift64*), with a type and cycle bit 1, and the pointer's low bits 0 so that no parser refuses it.
fn trb(number: usize, trb_type: u8) -> Trb {
    let mut state = 0x9e37_79b9_7f4a_7c15 ^ number as u64;
    let mut next = || {
        state ^= state >> 12;
        state ^= state << 25;
        state ^= state >> 27;
        state.wrapping_mul(0x2545_f491_4f6c_dd1d).to_le_bytes()
    };
    let mut trb = [0; 16];
    trb[..8].copy_from_slice(&next());
    trb[8..].copy_from_slice(&next());
    trb[0] &= 0xf0;
    // Without the chain bit, for which the original keeps a warning in a No Op.
    trb[12] = trb[12] & !0x10 | 1;
    trb[13] = trb_type << 2 | trb[13] & 3;
    trb
}

pub fn commands() -> Vec<Trb> {
    (0..ROUND)
        .map(|n| trb(n, COMMANDS[n % COMMANDS.len()]))
        .collect()
}

pub fn transfers() -> Vec<Trb> {
    (0..ROUND)
        .map(|n| trb(n, TRANSFERS[n % TRANSFERS.len()]))
        .collect()
}

/// Whether it is a command, and its bytes: commands and transfer TRBs in turn, one in eight of a type that is refused.
pub fn mixed() -> Vec<(bool, Trb)> {
    let both = commands().into_iter().zip(transfers());
    both.enumerate()
        .map(|(n, (command, transfer))| match n % 8 {
            7 => (n % 16 == 7, trb(n, UNKNOWN[n % UNKNOWN.len()])),
            even if even % 2 == 0 => (true, command),
            _ => (false, transfer),
        })
        .collect()
}

/// A ring at 0 with cycle bit 1: a round of Normal TRBs, before each so many Links that lead to the next slot.
pub fn linked(links: usize) -> Vec<u8> {
    let slots = ROUND * (links + 1);
    (0..slots)
        .flat_map(|n| {
            if n % (links + 1) == links {
                return trb(n, NORMAL);
            }
            let mut link = [0; 16];
            link[..8].copy_from_slice(&(16 * (n as u64 + 1)).to_le_bytes());
            link[12] = 1;
            link[13] = LINK << 2;
            link
        })
        .collect()
}

/// Where the segment table of the memory below is.
pub const TABLE: u64 = 0x40;

/// A reported place that is no slot, so that no ring is ever full.
pub const NEVER_A_SLOT: u64 = 0;

/// A table of so many segments, which have a round of slots together, with these bytes in the slots.
pub fn event_ring(segments: u16, slots: &[Trb]) -> Vec<u8> {
    const SEGMENTS_FROM: usize = 0x400;
    let size = ROUND / usize::from(segments);
    let mut bytes = vec![0; SEGMENTS_FROM];
    for n in 0..usize::from(segments) {
        let at = TABLE as usize + 16 * n;
        let base = SEGMENTS_FROM + 16 * size * n;
        bytes[at..at + 8].copy_from_slice(&(base as u64).to_le_bytes());
        bytes[at + 8..at + 12].copy_from_slice(&(size as u32).to_le_bytes());
    }
    bytes.extend(slots.iter().flatten());
    bytes
}
