//! The floor: the functions of floor.c.

#[cfg(test)]
mod tests;

use super::alike::each;
use super::inputs::{self, ROUND};
use super::line::Line;
use super::port;
use lomvigast::event_ring::EventRing;
use lomvigast::trb::EventTrb;
use lomvigast::GuestMemory;
use std::hint::black_box;

/// A record of floor.c's.
macro_rules! records {
    ($($name:ident { $($field:ident: $kind:ty,)* })*) => {
        $(#[repr(C)]
        #[derive(Debug, Default, Clone, Copy, PartialEq)]
        struct $name { $($field: $kind,)* })*
    };
}

records! {
    Parsed {
        kind: u8, flag: bool, short_packet: bool, chain: bool, completion: bool, immediate: bool, direction: bool,
        context_type: u8, endpoint: u8, slot: u8, request_type: u8, request: u8, stream: u16, value: u16, index: u16,
        length: u32, pointer: u64, raw: [u8; 16],
    }
    Event {
        pointer: u64, length: u32, kind: u8, code: u8, endpoint: u8, slot: u8, port: u8, event_data: bool,
    }
    Ring { place: u64, cycle: bool, }
    Chase { kind: u8, trb: [u8; 16], address: u64, links: u16, cleared: bool, completion: bool, }
    Events { table: u64, place: u64, remaining: u32, entries: u16, index: u16, cycle: bool, }
}

// SAFETY: floor.c has these functions; those that take a memory's first byte check nothing.
unsafe extern "C" {
    safe fn floor_parse_command(trb: &[u8; 16], parsed: &mut Parsed);
    safe fn floor_parse_transfer(trb: &[u8; 16], parsed: &mut Parsed);
    safe fn floor_event_bytes(event: &Event, cycle: bool, to: &mut [u8; 16]);
    safe fn floor_parse_event(trb: &[u8; 16], event: &mut Event);
    safe fn floor_advance(ring: &mut Ring);
    fn floor_next_trb(mem: *const u8, ring: &mut Ring, chase: &mut Chase);
    fn floor_add(mem: *mut u8, ring: &mut Events, event: &Event, report: u64) -> bool;
    fn floor_take(mem: *const u8, reader: &mut Events, to: &mut [u8; 16]) -> bool;
}

pub fn run(line: Line, rounds: u64) -> bool {
    match line {
        Line::ParseCommand => parse_command(rounds),
        Line::ParseTransfer => parse_transfer(rounds),
        Line::ParseMixed => parse_mixed(rounds),
        Line::EventWrite => event_write(rounds),
        Line::EventRead => event_read(rounds),
        Line::NextTrb { links } => next_trb(links, rounds),
        Line::Add { segments } => add(segments, rounds),
        Line::Take => take(rounds),
    }
    true
}

#[inline(never)]
fn parse_command(rounds: u64) {
    let mut parsed = Parsed::default();
    each(&inputs::commands(), rounds, |trb| {
        floor_parse_command(trb, black_box(&mut parsed));
    });
}

#[inline(never)]
fn parse_transfer(rounds: u64) {
    let mut parsed = Parsed::default();
    each(&inputs::transfers(), rounds, |trb| {
        floor_parse_transfer(trb, black_box(&mut parsed));
    });
}

#[inline(never)]
fn parse_mixed(rounds: u64) {
    let mut parsed = Parsed::default();
    each(&inputs::mixed(), rounds, |(command, trb)| match command {
        true => floor_parse_command(trb, black_box(&mut parsed)),
        false => floor_parse_transfer(trb, black_box(&mut parsed)),
    });
}

#[inline(never)]
fn event_write(rounds: u64) {
    let mut bytes = [0; 16];
    each(&events(), rounds, |event| {
        floor_event_bytes(event, true, black_box(&mut bytes));
    });
}

#[inline(never)]
fn event_read(rounds: u64) {
    let mut event = Event::default();
    each(&port::written(), rounds, |trb| {
        floor_parse_event(trb, black_box(&mut event));
    });
}

#[inline(never)]
fn next_trb(links: usize, rounds: u64) {
    let bytes = inputs::linked(links);
    let mut chase = Chase::default();
    for _ in 0..rounds {
        let mut ring = Ring {
            place: 0,
            cycle: true,
        };
        for _ in 0..ROUND {
            // SAFETY: the ring is among the bytes, and its Links lead to slots of theirs.
            unsafe { floor_next_trb(bytes.as_ptr(), black_box(&mut ring), black_box(&mut chase)) };
            floor_advance(black_box(&mut ring));
        }
    }
}

/// The port's events, as C has them.
fn events() -> Vec<Event> {
    let flat = |event: &EventTrb| match *event {
        EventTrb::Transfer(t) => Event {
            pointer: t.trb_pointer,
            length: t.trb_transfer_length,
            kind: 32,
            code: t.completion_code.into(),
            endpoint: t.endpoint_id,
            slot: t.slot_id,
            event_data: t.event_data,
            port: 0,
        },
        EventTrb::CommandCompletion(t) => Event {
            pointer: t.command_trb_pointer,
            length: t.command_completion_parameter,
            kind: 33,
            code: t.completion_code.into(),
            slot: t.slot_id,
            ..Event::default()
        },
        EventTrb::PortStatusChange(t) => Event {
            kind: 34,
            port: t.port_id,
            ..Event::default()
        },
        other => panic!("C has no form here for {other:?}"),
    };
    port::events().iter().map(flat).collect()
}

/// The state that the port's ring has when it is configured.
fn configured(bytes: &[u8], segments: u16) -> Events {
    let mut ring = EventRing::new();
    ring.configure(GuestMemory::new(bytes), inputs::TABLE, segments)
        .expect("a good table");
    let state = ring.state();
    Events {
        table: state.table,
        place: state.place,
        remaining: state.remaining,
        entries: state.entries,
        index: state.index,
        cycle: state.cycle,
    }
}

#[inline(never)]
fn add(segments: u16, rounds: u64) {
    let mut bytes = inputs::event_ring(segments, &[[0; 16]; ROUND]);
    let mut ring = configured(&bytes, segments);
    let report = black_box(inputs::NEVER_A_SLOT);
    each(&events(), rounds, |event| {
        // SAFETY: table and segments are among the bytes.
        black_box(unsafe { floor_add(bytes.as_mut_ptr(), black_box(&mut ring), event, report) });
    });
}

#[inline(never)]
fn take(rounds: u64) {
    let bytes = inputs::event_ring(4, &port::written());
    let (start, mut taken) = (configured(&bytes, 4), [0; 16]);
    for _ in 0..rounds {
        let mut reader = start;
        for _ in 0..ROUND {
            // SAFETY: as for `add`.
            black_box(unsafe {
                floor_take(
                    bytes.as_ptr(),
                    black_box(&mut reader),
                    black_box(&mut taken),
                )
            });
        }
    }
}
