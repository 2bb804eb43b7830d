//! Windows of guest memory: which bytes a part is, at the window's edges and at those of all addresses.

use lomvigast::trb::{NormalTrb, TrbDmaInfo};
use lomvigast::{GuestMemory, GuestMemoryMut, Refusal};
use std::ops::Range;

const LENGTH: usize = 8;

/// They begin at 0, just above it, and high; the last byte of the next has the last address but one, and of the next the last.
const STARTS: [u64; 5] = [
    0,
    1,
    0x1_0000_0000,
    u64::MAX - LENGTH as u64,
    u64::MAX - LENGTH as u64 + 1,
];

fn normal(data_pointer: u64, transfer_length: u32) -> NormalTrb {
    NormalTrb {
        data_pointer,
        transfer_length,
        interrupt_on_short: false,
        chain: false,
        interrupt_on_completion: false,
        immediate_data: false,
    }
}

/// The bytes that R-5's words give, in numbers that do not wrap.
fn expected(start: u64, pointer: u64, length: u32) -> Option<Range<usize>> {
    let (first, pointer) = (u128::from(start), u128::from(pointer));
    let end = pointer + u128::from(length);
    let inside = pointer >= first && end <= 1 << 64 && end - first <= LENGTH as u128;
    inside.then(|| (pointer - first) as usize..(end - first) as usize)
}

/// Pointers round the window's edges and those of all addresses.
fn pointers(start: u64) -> impl Iterator<Item = u64> {
    let near = move |edge: u64| (0..20).map(move |n| edge.wrapping_add(n).wrapping_sub(10));
    [0, start, start.wrapping_add(LENGTH as u64)]
        .into_iter()
        .flat_map(near)
}

#[test]
fn a_part_is_the_very_bytes() {
    for start in STARTS {
        let bytes: [u8; LENGTH] = [1, 2, 3, 4, 5, 6, 7, 8];
        for (pointer, length) in pointers(start).flat_map(|p| (0..10).map(move |n| (p, n))) {
            let trb = normal(pointer, length);
            let part = trb.data(GuestMemory::at(start, &bytes));
            match expected(start, pointer, length) {
                Some(range) => {
                    let part = part.expect("it is inside").as_ptr_range();
                    assert_eq!(part, bytes[range].as_ptr_range(), "{start:#x} {trb:?}");
                }
                None => assert_eq!(part, Err(Refusal::Outside), "{start:#x} {trb:?}"),
            }
        }
    }
}

#[test]
fn a_part_that_is_changed_is_the_same() {
    for start in STARTS {
        for (pointer, length) in pointers(start).flat_map(|p| (0..10).map(move |n| (p, n))) {
            let (mut bytes, mut filled) = ([0; LENGTH], [0; LENGTH]);
            let trb = normal(pointer, length);
            if let Ok(part) = trb.data_mut(&mut GuestMemoryMut::at(start, &mut bytes)) {
                part.fill(1);
            }
            if let Some(range) = expected(start, pointer, length) {
                filled[range].fill(1);
            }
            assert_eq!(bytes, filled, "{start:#x} {trb:?}");
        }
    }
}

/// The empty part behind the last byte is given, unless the address behind it would be 2^64.
#[test]
fn the_empty_part_at_the_end() {
    let ends = STARTS.map(|start| {
        let end = start.wrapping_add(LENGTH as u64);
        let bytes = [0; LENGTH];
        normal(end, 0)
            .data(GuestMemory::at(start, &bytes))
            .map(<[u8]>::len)
    });
    assert_eq!(ends, [Ok(0), Ok(0), Ok(0), Ok(0), Err(Refusal::Outside)]);
}

#[test]
fn bytes_past_the_last_address_have_none() {
    let bytes: [u8; 32] = core::array::from_fn(|i| i as u8);
    let memory = GuestMemory::at(u64::MAX - 15, &bytes);
    let first = core::array::from_fn(|i| i as u8);
    assert_eq!(memory.read_trb(u64::MAX - 15), Ok(first));
    assert_eq!(memory.read_trb(u64::MAX - 14), Err(Refusal::Outside));
    assert_eq!(memory.read_trb(0), Err(Refusal::Outside));
    assert_eq!(memory.start(), u64::MAX - 15);
}
