//! The run can fail: rules that are not document 01's are told from the port.

use super::rules::{Inside, INSIDE};
use super::*;

const COUNT: u64 = 10_000;

fn differing(wrong: &Rules, begins: Begins) -> [u64; 5] {
    let random = &mut Random::new(1);
    let runs = [
        configures(wrong, random, begins, COUNT),
        adds(wrong, random, begins, COUNT),
        takes(wrong, random, begins, COUNT),
        chases(wrong, random, begins, COUNT / 4),
        accesses(wrong, random, begins, COUNT / 4),
    ];
    runs.map(|beside| beside.tally.differing())
}

fn differs(change: impl FnOnce(&mut Rules), begins: Begins) -> [bool; 5] {
    let mut wrong = DOCUMENT_01.clone();
    change(&mut wrong);
    differing(&wrong, begins).map(|times| times != 0)
}

/// In which kinds of call rules with one change differ from the port, where memory begins at 0.
fn seen(change: impl FnOnce(&mut Rules)) -> [bool; 5] {
    differs(change, Begins::AtZero)
}

/// The same where it begins anywhere.
fn seen_at_windows(change: impl FnOnce(&mut Rules)) -> [bool; 5] {
    differs(change, Begins::Anywhere)
}

const CONFIGURE: [bool; 5] = [true, false, false, false, false];
const ADD: [bool; 5] = [false, true, false, false, false];
const TAKE: [bool; 5] = [false, false, true, false, false];
const CHASE: [bool; 5] = [false, false, false, true, false];
const MEMORY: [bool; 5] = [false, false, false, false, true];
const BOTH_ENDS: [bool; 5] = [false, true, true, false, false];
const ALL_RINGS: [bool; 5] = [true, true, true, false, false];
const ALL: [bool; 5] = [true; 5];

#[test]
fn document_01_is_the_port() {
    assert_eq!(differing(&DOCUMENT_01, Begins::AtZero), [0; 5]);
    assert_eq!(differing(&DOCUMENT_01, Begins::Anywhere), [0; 5]);
}

// The slips of R-5 that look right.

/// A window read as if it began at 0.
const AT_ZERO: Inside = |_, length, address, count| (address + count <= length).then_some(address);

/// Only the end is looked at, and what begins below the window is let through.
const BELOW: Inside = |start, length, address, count| {
    let end = address + count;
    let inside = end <= 1 << 64 && end <= start + length;
    inside.then(|| address.saturating_sub(start))
};

/// The subtraction wraps, and so does the sum after it.
const WRAPS: Inside = |start, length, address, count| {
    let offset = (address as u64).wrapping_sub(start as u64);
    let end = offset.wrapping_add(count as u64);
    (u128::from(end) <= length).then_some(offset.into())
};

/// The end at 2^64 is refused.
const END_REFUSED: Inside = |start, length, address, count| {
    INSIDE(start, length, address, count).filter(|_| address + count < 1 << 64)
};

/// Bytes of the slice that have no address are let through.
const PAST_THE_END: Inside = |start, length, address, count| {
    (address >= start && address - start + count <= length).then(|| address - start)
};

#[test]
fn other_windows() {
    for slip in [AT_ZERO, BELOW, WRAPS, END_REFUSED, PAST_THE_END] {
        assert_eq!(seen_at_windows(|rules| rules.inside = slip), ALL);
    }
    // Memory that begins at 0 tells none of these: only windows do.
    for slip in [AT_ZERO, BELOW, END_REFUSED, PAST_THE_END] {
        assert_eq!(seen(|rules| rules.inside = slip), [false; 5]);
    }
}

#[test]
fn other_windows_for_a_whole_segment() {
    for slip in [AT_ZERO, BELOW, WRAPS, END_REFUSED, PAST_THE_END] {
        assert_eq!(seen_at_windows(|rules| rules.whole = slip), ALL_RINGS);
    }
}

#[test]
fn an_empty_part_that_is_given_anywhere() {
    let slip: Inside = |start, length, address, count| match count {
        0 => Some(0),
        _ => INSIDE(start, length, address, count),
    };
    assert_eq!(seen_at_windows(|rules| rules.inside = slip), MEMORY);
}

#[test]
fn places_that_do_not_go_round() {
    let stays: fn(u64) -> u64 = |place| place.saturating_add(16);
    assert_eq!(seen_at_windows(|rules| rules.step = stays), BOTH_ENDS);
    assert_eq!(seen(|rules| rules.step = stays), [false; 5]);
}

/// That there are no entries needs no limit of its own: no index is below 0.
#[test]
fn other_limits_of_a_state() {
    assert_eq!(seen(|rules| rules.table = 16), BOTH_ENDS);
    assert_eq!(seen(|rules| rules.table = 32), BOTH_ENDS);
    assert_eq!(seen(|rules| rules.place = 8), BOTH_ENDS);
    assert_eq!(seen(|rules| rules.place = 32), BOTH_ENDS);
    assert_eq!(seen(|rules| rules.entries = 1..=17), BOTH_ENDS);
    assert_eq!(seen(|rules| rules.entries = 1..=15), BOTH_ENDS);
    assert_eq!(seen(|rules| rules.remaining = 0..=4096), BOTH_ENDS);
    assert_eq!(seen(|rules| rules.remaining = 1..=4097), BOTH_ENDS);
    assert_eq!(seen(|rules| rules.remaining = 1..=4095), BOTH_ENDS);
    let up_to = |index, entries| index <= entries;
    assert_eq!(seen(|rules| rules.index = up_to), BOTH_ENDS);
}

#[test]
fn other_limits_of_what_is_given() {
    assert_eq!(seen(|rules| rules.base = 16), CONFIGURE);
    assert_eq!(seen(|rules| rules.count = 1..=17), CONFIGURE);
    assert_eq!(seen(|rules| rules.count = 1..=15), CONFIGURE);
    assert_eq!(seen(|rules| rules.report = 8), ADD);
    assert_eq!(seen(|rules| rules.segment = 16), ALL_RINGS);
    assert_eq!(seen(|rules| rules.size = 0..=4096), ALL_RINGS);
    assert_eq!(seen(|rules| rules.size = 1..=4097), ALL_RINGS);
    assert_eq!(seen(|rules| rules.size = 1..=4095), ALL_RINGS);
}

/// Each two neighbours of an order exchanged, and each refusal of it that can be left out with an answer to give.
#[test]
fn other_orders() {
    let adding: [&[u8]; 5] = [
        &[4, 8, 6, 1, 5, 7],
        &[8, 6, 4, 1, 5, 7],
        &[8, 4, 1, 6, 5, 7],
        &[8, 4, 6, 5, 1, 7],
        &[8, 4, 6, 1, 7, 5],
    ];
    for order in adding {
        assert_eq!(seen(|rules| rules.adding = order), ADD, "{order:?}");
    }
    let configuring: [&[u8]; 3] = [&[3, 2, 1, 5], &[2, 1, 3, 5], &[2, 3, 5, 1]];
    for order in configuring {
        let seen = seen(|rules| rules.configuring = order);
        assert_eq!(seen, CONFIGURE, "{order:?}");
    }
    assert_eq!(seen(|rules| rules.taking = &[1, 4, 5]), TAKE);
    assert_eq!(seen(|rules| rules.taking = &[5, 4, 1]), TAKE);
}

#[test]
fn refusals_left_out() {
    assert_eq!(seen(|rules| rules.adding = &[8, 4, 6, 1, 7]), ADD);
    assert_eq!(seen(|rules| rules.adding = &[8, 4, 6, 1, 5]), ADD);
    assert_eq!(seen(|rules| rules.taking = &[4, 1]), TAKE);
    assert_eq!(seen(|rules| rules.configuring = &[2, 3, 1]), CONFIGURE);
}

#[test]
fn other_notes_and_counts_of_links() {
    assert_eq!(seen(|rules| rules.links = 255), CHASE);
    assert_eq!(seen(|rules| rules.links = 257), CHASE);
    let last = |rules: &mut Rules| rules.noted = |links| &links[links.len().saturating_sub(1)..];
    assert_eq!(seen(last), CHASE);
    let first = |rules: &mut Rules| rules.noted = |links| &links[..links.len().min(1)];
    assert_eq!(seen(first), CHASE);
}

/// Every two refusals that document 01's words can put together come together often, in a run as short as this.
#[test]
fn refusals_come_together() {
    for begins in [Begins::AtZero, Begins::Anywhere] {
        come_together(begins);
    }
}

fn come_together(begins: Begins) {
    let random = &mut Random::new(1);
    let together = |beside: Beside, pairs: &[(usize, &[usize])]| {
        for &(given, others) in pairs {
            for other in others {
                let times = beside.given[given].before[*other];
                assert!(times >= 20, "{given} before {other}: {times} times");
            }
        }
    };
    let configuring: [(usize, &[usize]); 3] = [(2, &[3, 1, 5]), (3, &[1, 5]), (1, &[5])];
    together(
        configures(&DOCUMENT_01, random, begins, COUNT),
        &configuring,
    );
    let adding: [(usize, &[usize]); 5] = [
        (8, &[4, 6, 1, 5, 7]),
        (4, &[6, 1, 5, 7]),
        (6, &[1, 5, 7]),
        (1, &[5, 7]),
        (5, &[7]),
    ];
    together(adds(&DOCUMENT_01, random, begins, COUNT), &adding);
    // 1 and 5 do not come together: the entry is looked at only if the slot is there.
    together(takes(&DOCUMENT_01, random, begins, COUNT), &[(4, &[1, 5])]);
}
