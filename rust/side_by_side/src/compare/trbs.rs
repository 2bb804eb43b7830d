//! Parsers, the event encoder and decoder, and completion codes.

use super::books;
use crate::inputs::any_event;
use crate::random::Random;
use crate::tally::Tally;
use lomvigast::trb::{
    self as p, CommandTrbVariant, CompletionCode, EventTrb, RawTrbBuffer, TransferTrbVariant,
    Unrecognized,
};
use lomvigast::{GuestMemory, Refusal};
use original::device::xhci::trb as o;

/// Every byte as a completion code: listed exactly if the original has a code of that number.
pub fn codes() -> Tally {
    let mut tally = Tally::new("completion codes");
    let listed = CompletionCode::ALL.map(|code| u8::from(books::original_code(code)));
    for byte in 0..=255 {
        let expected = listed.contains(&byte).then_some(byte).ok_or(Refusal::Code);
        let port = CompletionCode::try_from(byte).map(u8::from);
        tally.hold(&byte, expected, port);
        let class = match byte {
            _ if expected.is_ok() => p::Class::Listed,
            ..=191 => p::Class::Reserved,
            192..=223 => p::Class::VendorError,
            224.. => p::Class::VendorInfo,
        };
        tally.hold(&byte, class, p::Class::of(byte));
    }
    tally
}

/// One kind of parser: how a TRB is held.
type Hold = fn(&mut Tally, RawTrbBuffer);

pub const PARSERS: [(&str, Hold); 3] = [
    ("command parser", hold_command),
    ("transfer parser", hold_transfer),
    ("link parser", hold_link),
];

fn hold_command(tally: &mut Tally, raw: RawTrbBuffer) {
    let mut expected = books::command(o::CommandTrbVariant::parse(raw));
    let port = CommandTrbVariant::parse(raw);
    if let CommandTrbVariant::SetTrDequeuePointer(d) = &mut expected {
        // The two entries of docs/DIFFERENCES.md, as the original reads them, and then as document 01 does.
        let read = (d.stream_id, d.stream_context_type);
        let original = (u16::from_le_bytes([raw[11], raw[12]]), raw[0] & 0xe);
        tally.hold(&raw, original, read);
        d.stream_id = u16::from_le_bytes([raw[10], raw[11]]);
        d.stream_context_type = (raw[0] & 0xe) >> 1;
        if read != (d.stream_id, d.stream_context_type) {
            tally.outside("stream id and context type of type 16; all else is compared");
        }
    }
    tally.hold(&raw, expected, port);
}

fn hold_transfer(tally: &mut Tally, raw: RawTrbBuffer) {
    let expected = books::transfer(o::TransferTrbVariant::parse(raw));
    let warned = !original::warnings().is_empty();
    let port = TransferTrbVariant::parse(raw);
    tally.hold(&raw, expected, port);
    // The original's one warning here is the port's field.
    let chained = matches!(
        port,
        TransferTrbVariant::NoOp(p::NoOpTrb { chain: true, .. })
    );
    tally.hold(&raw, warned, chained);
}

fn hold_link(tally: &mut Tally, raw: RawTrbBuffer) {
    let fields = (raw[13] >> 2, raw[12] & 1 != 0);
    tally.hold(&raw, fields, (p::trb_type(&raw), p::cycle_bit(&raw)));
    tally.hold(&raw, books::link(raw), p::LinkTrb::parse(raw));
}

/// Every type with every value of each byte, the others 0, 0xff and `fillings` times random.
pub fn every_byte(name: &'static str, hold: Hold, random: &mut Random, fillings: usize) -> Tally {
    let mut tally = Tally::new(name);
    let mut others = vec![[0; 16], [0xff; 16]];
    others.extend((0..fillings).map(|_| random.trb()));
    for trb_type in 0..64 {
        for at in 0..16 {
            for other in &others {
                every_value(&mut tally, hold, trb_type, at, *other);
            }
        }
    }
    tally
}

fn every_value(tally: &mut Tally, hold: Hold, trb_type: u8, at: usize, mut raw: RawTrbBuffer) {
    for value in 0..=255 {
        raw[at] = value;
        raw[13] = trb_type << 2 | raw[13] & 3;
        hold(tally, raw);
    }
}

pub fn any(name: &'static str, hold: Hold, random: &mut Random, count: u64) -> Tally {
    let mut tally = Tally::new(name);
    for _ in 0..count {
        hold(&mut tally, random.trb());
    }
    tally
}

/// Whether an entry of docs/DIFFERENCES.md stands between the books: the original cuts a long length.
pub fn cut_by_original(event: &EventTrb) -> bool {
    matches!(event, EventTrb::Transfer(t) if t.trb_transfer_length >= 1 << 24)
}

pub fn hold_event(tally: &mut Tally, event: &EventTrb, cycle: bool) {
    let port = event.to_bytes(cycle);
    if cut_by_original(event) {
        tally.outside("length of a Transfer Event of 2^24 or more: cut, and refused with 8 here");
        tally.hold(event, Err(Refusal::Event), port);
        return;
    }
    let written = books::unless_panicked(|| books::original_event(event).to_bytes(cycle));
    tally.hold(event, written.ok_or(Refusal::Event), port);
    if let Ok(bytes) = port {
        tally.hold(event, Ok(*event), EventTrb::parse(bytes));
    }
}

/// Every code, slot, endpoint and port, every edge of pointer, parameter and length, and some at random.
pub fn events(random: &mut Random, count: u64) -> Tally {
    let mut tally = Tally::new("events written, and read back");
    for event in edges() {
        hold_event(&mut tally, &event, false);
        hold_event(&mut tally, &event, true);
    }
    for _ in 0..count {
        hold_event(&mut tally, &any_event(random), random.once_in(2));
    }
    tally
}

/// Events whose every byte has been 0 and 0xff, with each code and each value of a byte-wide field.
pub fn edges() -> Vec<EventTrb> {
    let mut events = Vec::new();
    let pointers = [0, 0x10, 0x2010, 1, 8, u64::MAX, u64::MAX - 15];
    let lengths = [0, 1, 0xff_ffff, 0x100_0000, u32::MAX];
    for (pointer, length) in pointers.iter().flat_map(|p| lengths.map(|l| (*p, l))) {
        for code in CompletionCode::ALL {
            events.extend([
                EventTrb::new_transfer_event_trb(pointer, length, code, false, 0, 0xff),
                EventTrb::new_transfer_event_trb(pointer, length, code, true, 0xff, 0),
                EventTrb::new_command_completion_event_trb(pointer, length, code, 0x5a),
            ]);
        }
    }
    for byte in 0..=255 {
        let code = CompletionCode::Success;
        events.extend([
            EventTrb::new_port_status_change_event_trb(byte),
            EventTrb::new_transfer_event_trb(0, 0, code, false, byte, !byte),
            EventTrb::new_command_completion_event_trb(0, 0, code, byte),
        ]);
    }
    events
}

/// What the decoder has to say of sixteen bytes, by the original's encoder: the event exactly if the original writes these
/// bytes for it; or else 10, 12 or 11, in this order.
fn decoded(raw: RawTrbBuffer) -> Result<EventTrb, Unrecognized> {
    let refused = |refusal| {
        Err(Unrecognized {
            buffer: raw,
            refusal,
        })
    };
    let number = u64::from_le_bytes([raw[8], raw[9], raw[10], 0, 0, 0, 0, 0]) as u32;
    let pointer = u64::from_le_bytes([
        raw[0], raw[1], raw[2], raw[3], raw[4], raw[5], raw[6], raw[7],
    ]);
    let code = CompletionCode::ALL
        .into_iter()
        .find(|code| *code as u8 == raw[11]);
    let event = match (raw[13] >> 2, code) {
        (32..=34, None) => return refused(Refusal::Code),
        (32, Some(code)) => {
            let flag = raw[12] & 4 != 0;
            EventTrb::new_transfer_event_trb(pointer, number, code, flag, raw[14], raw[15])
        }
        (33, Some(code)) => {
            EventTrb::new_command_completion_event_trb(pointer, number, code, raw[15])
        }
        (34, Some(CompletionCode::Success)) => EventTrb::new_port_status_change_event_trb(raw[3]),
        (34, Some(_)) => return refused(Refusal::Code),
        (other, _) => return refused(Refusal::Type(other)),
    };
    let write = || books::original_event(&event).to_bytes(raw[12] & 1 != 0);
    match books::unless_panicked(write) {
        Some(written) if written == raw => Ok(event),
        _ => refused(Refusal::Reserved),
    }
}

/// Every single-bit change of good events, and bytes of the three types at random.
pub fn decoder(random: &mut Random, count: u64) -> Tally {
    let mut tally = Tally::new("event decoder");
    let good = edges()
        .into_iter()
        .filter_map(|event| event.to_bytes(true).ok());
    for raw in good.step_by(7) {
        for bit in 0..128 {
            let mut changed = raw;
            changed[bit / 8] ^= 1 << (bit % 8);
            tally.hold(&changed, decoded(changed), EventTrb::parse(changed));
        }
    }
    for _ in 0..count {
        let mut raw = random.trb();
        raw[13] = random.between(32, 35) as u8 * 4;
        raw[11] = random.below(40) as u8;
        if random.once_in(2) {
            raw[12] &= 5;
            raw[14] &= random.pick(&[0, 0xff]);
        }
        tally.hold(&raw, decoded(raw), EventTrb::parse(raw));
    }
    tally
}

/// The part of memory that a TRB points at, beside a plain reading of its fields.
pub fn parts(random: &mut Random, count: u64) -> Tally {
    use p::TrbDmaInfo;
    let mut tally = Tally::new("data parts");
    let bytes: Vec<u8> = (0..0x300).map(|_| random.byte()).collect();
    for _ in 0..count {
        let length = random.below(0x301);
        let memory = &bytes[..length as usize];
        let mut raw = random.trb();
        raw[13] = 1 << 2;
        let pointer = match random.below(3) {
            0 => (length + random.below(5)).wrapping_sub(2),
            1 => random.below(0x300),
            _ => random.next(),
        };
        raw[..8].copy_from_slice(&pointer.to_le_bytes());
        raw[9] &= random.pick(&[0, 1, 3]);
        raw[10] &= random.pick(&[0, 0, 1]);
        let TransferTrbVariant::Normal(normal) = TransferTrbVariant::parse(raw) else {
            unreachable!("type 1")
        };
        let asked = usize::from(raw[8]) | usize::from(raw[9]) << 8 | usize::from(raw[10] & 1) << 16;
        let inside = usize::try_from(pointer)
            .ok()
            .and_then(|at| memory.get(at..)?.get(..asked));
        let expected = match inside {
            _ if raw[12] & 0x40 != 0 => Err(Refusal::Immediate),
            None => Err(Refusal::Outside),
            // The very part, and not one like it.
            Some(part) => Ok((part.as_ptr(), part.len())),
        };
        let port = normal.data(GuestMemory::new(memory));
        tally.hold(
            &(raw, length),
            expected,
            port.map(|part| (part.as_ptr(), part.len())),
        );
    }
    tally
}
