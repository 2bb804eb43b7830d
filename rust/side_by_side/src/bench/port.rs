//! The port, through the crate that an engineer links.

use super::alike::{alike, answer, each};
use super::inputs::{self, Trb, ROUND};
use super::line::Line;
use lomvigast::event_ring::{EventReader, EventRing};
use lomvigast::linked_ring::LinkedRing;
use lomvigast::{GuestMemory, GuestMemoryMut};
use std::hint::black_box;

alike!(lomvigast::trb);

pub fn run(line: Line, rounds: u64) -> bool {
    match line {
        Line::ParseCommand => parse_command(rounds),
        Line::ParseTransfer => parse_transfer(rounds),
        Line::ParseMixed => parse_mixed(rounds),
        Line::EventWrite => event_write(rounds),
        Line::EventRead => event_read(rounds),
        Line::NextTrb { links } => next_trb(links, rounds),
        Line::Add { segments } => add(segments, rounds),
        Line::Take => take(rounds),
    }
    true
}

/// The events as the ring writes them on its first pass.
pub fn written() -> Vec<Trb> {
    let bytes = |event: &EventTrb| event.to_bytes(true).expect("an event that can be written");
    events().iter().map(bytes).collect()
}

#[inline(never)]
fn event_read(rounds: u64) {
    each(&written(), rounds, |trb| answer(EventTrb::parse(*trb)));
}

#[inline(never)]
fn next_trb(links: usize, rounds: u64) {
    let bytes = inputs::linked(links);
    let memory = GuestMemory::new(&bytes);
    let mut ring = LinkedRing::new(0, true);
    for _ in 0..rounds {
        ring.set_dequeue_pointer(0, true);
        for _ in 0..ROUND {
            answer(black_box(&mut ring).next_trb(*black_box(&memory)));
            black_box(&mut ring).advance();
        }
    }
}

#[inline(never)]
fn add(segments: u16, rounds: u64) {
    let mut bytes = inputs::event_ring(segments, &[[0; 16]; ROUND]);
    let mut memory = GuestMemoryMut::new(&mut bytes);
    let mut ring = EventRing::new();
    ring.configure(memory.shared(), inputs::TABLE, segments)
        .expect("a good table");
    let report = black_box(inputs::NEVER_A_SLOT);
    each(&events(), rounds, |event| {
        answer(black_box(&mut ring).enqueue(black_box(&mut memory), event, report));
    });
}

#[inline(never)]
fn take(rounds: u64) {
    let bytes = inputs::event_ring(4, &written());
    let memory = GuestMemory::new(&bytes);
    let mut start = EventReader::new();
    start
        .configure(memory, inputs::TABLE, 4)
        .expect("a good table");
    for _ in 0..rounds {
        let mut reader = start.clone();
        for _ in 0..ROUND {
            answer(black_box(&mut reader).take(*black_box(&memory)));
        }
    }
}
