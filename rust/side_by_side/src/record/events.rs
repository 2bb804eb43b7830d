//! Events: as they stand in a line, and written.

use super::{bytes, numbers, Sample};
use crate::compare::books::original_code;
use crate::random::Random;
use original::device::xhci::trb::CompletionCode::{self, Success};
use original::device::xhci::trb::EventTrb;

/// The 36 codes, in the order of their numbers.
fn codes() -> [CompletionCode; 36] {
    lomvigast::trb::CompletionCode::ALL.map(original_code)
}

/// An event, and how it stands in a line.
pub struct Event {
    pub text: String,
    pub event: EventTrb,
}

fn transfer(pointer: u64, length: u32, code: CompletionCode, flag: bool, ids: [u8; 2]) -> Event {
    let [endpoint, slot] = ids;
    let (number, flagged) = (u8::from(code).into(), flag.into());
    Event {
        text: numbers([
            32,
            pointer,
            length.into(),
            number,
            flagged,
            endpoint.into(),
            slot.into(),
            0,
        ]),
        event: EventTrb::new_transfer_event_trb(pointer, length, code, flag, endpoint, slot),
    }
}

fn completion(pointer: u64, parameter: u32, code: CompletionCode, slot: u8) -> Event {
    let number = u8::from(code).into();
    Event {
        text: numbers([33, pointer, parameter.into(), number, 0, 0, slot.into(), 0]),
        event: EventTrb::new_command_completion_event_trb(pointer, parameter, code, slot),
    }
}

pub fn port(port_id: u8) -> Event {
    Event {
        text: numbers([34, 0, 0, 1, 0, 0, 0, port_id.into()]),
        event: EventTrb::new_port_status_change_event_trb(port_id),
    }
}

/// Any event that can be written.
pub fn any(random: &mut Random) -> Event {
    let code = random.pick(&codes());
    let (pointer, length, rest) = (random.next(), random.next() as u32 >> 8, random.trb());
    match random.below(3) {
        0 => transfer(pointer, length, code, random.once_in(2), [rest[0], rest[1]]),
        1 => completion(pointer & !0xf, length, code, rest[0]),
        _ => port(rest[0]),
    }
}

pub fn record(sample: &mut Sample, random: &mut Random) {
    let bounds = of_codes().chain(of_fields()).chain((0..=0xff).map(port));
    let events: Vec<Event> = bounds.chain((0..200).map(|_| any(random))).collect();
    for Event { text, event } in events {
        for cycle in [false, true] {
            let input = text.clone() + &numbers([cycle.into()]);
            let answer = numbers([0]) + &bytes(&event.to_bytes(cycle));
            sample.case('E', &input, &answer);
        }
    }
}

fn of_codes() -> impl Iterator<Item = Event> {
    let both = |code| {
        [
            transfer(0, 0, code, false, [0, 0]),
            completion(0, 0, code, 0),
        ]
    };
    codes().into_iter().flat_map(both)
}

/// Each field at its least and its most, and at each single bit.
fn of_fields() -> impl Iterator<Item = Event> {
    let pointers = (0..64).map(|bit| 1 << bit).chain([0, u64::MAX]);
    let lengths = (0..24).map(|bit| 1 << bit).chain([0, 0xff_ffff]);
    let ids = (0..8).map(|bit| 1 << bit).chain([0, 0xff]);
    let of_pointer = |pointer| {
        [
            transfer(pointer, 0, Success, true, [0, 0]),
            completion(pointer & !0xf, 0, Success, 0),
        ]
    };
    let of_length = |length| {
        [
            transfer(0, length, Success, false, [0, 0]),
            completion(0, length, Success, 0),
        ]
    };
    let of_id = |id| {
        [
            transfer(0, 0, Success, false, [id, 0]),
            transfer(0, 0, Success, true, [0, id]),
            completion(0, 0, Success, id),
        ]
    };
    pointers
        .flat_map(of_pointer)
        .chain(lengths.flat_map(of_length))
        .chain(ids.flat_map(of_id))
}
