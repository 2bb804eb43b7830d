//! The layouts of what crosses, held beside the places that the Rattle side's definitions give, and beside what the archive reads
//! and writes: each field has a value of its own here.

use super::*;
use crate::types::*;
use crate::Refusal;
use std::mem::{align_of, offset_of, size_of};
use std::vec::Vec;

/// Holds a record's fields to their places, and its size.
macro_rules! places {
    ($name:ident { $($field:ident = $at:literal),* } $size:literal) => {
        $(assert_eq!(offset_of!($name, $field), $at, stringify!($name.$field));)*
        assert_eq!(size_of::<$name>(), $size, stringify!($name));
    };
}

// An enum with `#[repr(u8)]` is its tag in byte 0, and behind it the variant's record at the next place that the record's
// alignment allows: byte 1 for bytes alone, byte 2 for two-byte numbers, byte 8 where there is a pointer.

#[test]
fn commands_have_their_places() {
    places!(DisableSlotCommandTrbData { slot_id = 0 } 1);
    places!(AddressDeviceCommandTrbData { input_context_pointer = 0, slot_id = 8, block_set_address_request = 9 } 16);
    places!(ConfigureEndpointCommandTrbData { input_context_pointer = 0, slot_id = 8, deconfigure = 9 } 16);
    places!(EvaluateContextCommandTrbData { input_context_pointer = 0, slot_id = 8 } 16);
    places!(ResetEndpointCommandTrbData { endpoint_id = 0, slot_id = 1 } 2);
    places!(StopEndpointCommandTrbData { endpoint_id = 0, slot_id = 1 } 2);
    places!(SetTrDequeuePointerCommandTrbData {
        dequeue_pointer = 0, stream_id = 8, endpoint_id = 10, slot_id = 11, dequeue_cycle_state = 12, stream_context_type = 13
    } 16);
    places!(ResetDeviceCommandTrbData { slot_id = 0 } 1);
    assert_eq!(size_of::<Refusal>(), 2);
    let whole = (
        size_of::<CommandTrbVariant>(),
        align_of::<CommandTrbVariant>(),
    );
    assert_eq!(whole, (3 * 8, 8));
}

#[test]
fn transfers_have_their_places() {
    places!(NormalTrb {
        data_pointer = 0, transfer_length = 8, chain = 12, interrupt_on_completion = 13, immediate_data = 14,
        interrupt_on_short = 15
    } 16);
    places!(SetupStageTrb { request_type = 0, request = 1, value = 2, index = 4, length = 6, interrupt_on_completion = 8 } 10);
    places!(DataStageTrb {
        data_pointer = 0, transfer_length = 8, chain = 12, interrupt_on_completion = 13, immediate_data = 14,
        interrupt_on_short = 15, direction = 16
    } 24);
    places!(StatusStageTrb { chain = 0, interrupt_on_completion = 1, direction = 2 } 3);
    places!(EventDataTrb { event_data = 0, chain = 8, interrupt_on_completion = 9 } 16);
    places!(NoOpTrb { chain = 0, interrupt_on_completion = 1 } 2);
    let whole = (
        size_of::<TransferTrbVariant>(),
        align_of::<TransferTrbVariant>(),
    );
    assert_eq!(whole, (4 * 8, 8));
}

#[test]
fn events_and_chases_have_their_places() {
    places!(TransferEventTrbData {
        trb_pointer = 0, trb_transfer_length = 8, completion_code = 12, event_data = 13, endpoint_id = 14, slot_id = 15
    } 16);
    places!(CommandCompletionEventTrbData {
        command_trb_pointer = 0, command_completion_parameter = 8, completion_code = 12, slot_id = 13
    } 16);
    places!(PortStatusChangeEventTrbData { port_id = 0 } 1);
    let whole = (size_of::<EventTrb>(), align_of::<EventTrb>());
    assert_eq!(whole, (3 * 8, 8));
    places!(RawTrb { address = 0, buffer = 8 } 24);
    places!(Notes { links = 0, cleared = 2, completion = 3 } 4);
    places!(Chase { answer = 0, notes = 32 } 40);
    assert_eq!(align_of::<Chase>(), 8);
}

#[test]
fn records_in_registers_have_their_places() {
    places!(CTrb { low = 0, high = 8 } 16);
    places!(CLink { pointer = 0, link = 8, cleared = 9, toggle = 10, completion = 11 } 16);
    places!(CPart { offset = 0, length = 8, refusal = 12 } 16);
    places!(CCoded { refusal = 0, code = 1 } 2);
    places!(CNumber { value = 0, refusal = 8 } 16);
}

// What the archive reads and writes. The fields of commands and transfer TRBs are in tests/fields.rs.

const TRB: RawTrbBuffer = [1, 2, 3, 4, 5, 6, 7, 8, 9, 10, 11, 12, 13, 14, 15, 16];

/// Where the lent windows begin.
const START: u64 = 0x7172_7374_7500_0000;

/// A state that breaks a ring's limits, with a value of its own in each word.
const STATE: State = State {
    table: 0x0102_0304_0506_0708,
    place: 0x1112_1314_1516_1718,
    remaining: 0x2122_2324,
    index: 0x4142,
    entries: 0x3132,
    ready: 1,
    cycle: 0,
};

const EVENT: EventTrb = EventTrb::Transfer(TransferEventTrbData {
    trb_pointer: 0x0102_0304_0506_0708,
    trb_transfer_length: 0x11_1213,
    completion_code: CompletionCode::ShortPacket,
    event_data: true,
    endpoint_id: 0x21,
    slot_id: 0x22,
});

#[test]
fn a_linked_ring_crosses() {
    let mut ring = LinkedState { place: 0, cycle: 0 };
    for cycle in [true, false] {
        let place = 0x0102_0304_0506_0708;
        set_place(&mut ring, place, cycle);
        let cycle = cycle.into();
        assert_eq!(ring, LinkedState { place, cycle });
        advance(&mut ring);
        let place = place + 16;
        assert_eq!(ring, LinkedState { place, cycle });
    }
}

#[test]
fn a_chase_crosses() {
    let mut mem = vec![0; 0x1_0240];
    mem[..8].copy_from_slice(&(START + 0x1_0208).to_le_bytes());
    (mem[12], mem[13]) = (0x21, 6 << 2);
    mem[0x1_0200..0x1_0210].copy_from_slice(&TRB);
    let first = LinkedState {
        place: START,
        cycle: 1,
    };
    let mut ring = first.clone();
    let notes = Notes {
        links: 1,
        cleared: true,
        completion: true,
    };
    let answer = Answer::Trb(RawTrb {
        address: START + 0x1_0200,
        buffer: TRB,
    });
    assert_eq!(next_trb(START, &mem, &mut ring), Chase { answer, notes });
    assert_eq!((ring.place, ring.cycle), (START + 0x1_0200, 1));

    ring = first.clone();
    let refused = next_trb(START, &mem[..0x1_020f], &mut ring);
    assert_eq!(refused.answer, Answer::Refused(Refusal::Outside));
    assert_eq!(ring, first);

    mem[0x1_020c] = 0;
    assert_eq!(next_trb(START, &mem, &mut ring).answer, Answer::NothingNew);
    mem[..8].copy_from_slice(&START.to_le_bytes());
    ring = first;
    let chase = next_trb(START, &mem, &mut ring);
    assert_eq!(chase.answer, Answer::TooManyLinks);
}

#[test]
fn a_refusal_leaves_a_state_as_it_was() {
    for (ready, cycle) in [(0, 1), (1, 0)] {
        let before = State {
            ready,
            cycle,
            ..STATE
        };
        let mut state = before.clone();
        assert_eq!(configure(START, &[], &mut state, 1, 1), 2);
        assert_eq!(configure_reader(START, &[], &mut state, 0, 0), 3);
        assert_eq!(add(START, &mut [], &mut state, &EVENT, 0), 4);
        assert_eq!(take(START, &[], &mut state), Err(4));
        assert_eq!(state, before);
        assert_eq!(State::from(RingState::from(&before)), before);
    }
}

/// A table at 0x40 from the start on, whose entry 1 is a segment of two slots, and a TRB.
fn segments() -> Vec<u8> {
    let mut mem = vec![0; 0x100];
    mem[0x50..0x58].copy_from_slice(&(START + 0x80).to_le_bytes());
    mem[0x58] = 2;
    mem[0xc0..0xd0].copy_from_slice(&TRB);
    mem
}

#[test]
fn a_state_is_read_and_written_by_its_words() {
    let mut mem = segments();
    let table = START + 0x40;
    let last = State {
        table,
        place: START + 0xc0,
        remaining: 1,
        index: 0,
        entries: 2,
        ready: 1,
        cycle: 1,
    };
    let moved = State {
        place: START + 0x80,
        remaining: 2,
        index: 1,
        ..last.clone()
    };
    let mut state = last.clone();
    assert_eq!(take(START, &mem, &mut state), Ok(TRB));
    assert_eq!(state, moved);
    state = last;
    assert_eq!(add(START, &mut mem, &mut state, &EVENT, START + 0x90), 0);
    assert_eq!(state, moved);
    assert_eq!(take(START, &mem, &mut state), Err(NOTHING));
    assert_eq!(configure(START, &mem, &mut state, table, 2), 5);
    mem[0x40..0x48].copy_from_slice(&(START + 0xc0).to_le_bytes());
    mem[0x48] = 3;
    for configure in [configure, configure_reader] {
        assert_eq!(configure(START, &mem, &mut state, table, 2), 0);
        let first = State {
            place: START + 0xc0,
            remaining: 3,
            index: 0,
            ..moved.clone()
        };
        assert_eq!(state, first);
    }
    reset(&mut state);
    assert_eq!(state, State::default());
}

#[test]
fn an_event_crosses_both_ways() {
    let parameter = EventTrb::CommandCompletion(CommandCompletionEventTrbData {
        command_trb_pointer: 0x0102_0304_0506_0700,
        command_completion_parameter: 0x11_1213,
        completion_code: CompletionCode::StallError,
        slot_id: 0x22,
    });
    let port = EventTrb::PortStatusChange(PortStatusChangeEventTrbData { port_id: 0x31 });
    let written = [
        (
            EVENT,
            [
                8,
                7,
                6,
                5,
                4,
                3,
                2,
                1,
                0x13,
                0x12,
                0x11,
                13,
                5,
                32 << 2,
                0x21,
                0x22,
            ],
        ),
        (
            parameter,
            [
                0,
                7,
                6,
                5,
                4,
                3,
                2,
                1,
                0x13,
                0x12,
                0x11,
                6,
                1,
                33 << 2,
                0,
                0x22,
            ],
        ),
        (
            port,
            [0, 0, 0, 0x31, 0, 0, 0, 0, 0, 0, 0, 1, 1, 34 << 2, 0, 0],
        ),
    ];
    for (event, bytes) in written {
        assert_eq!(event_bytes(&event, 1), CTrb::from(&bytes));
        assert_eq!(parse_event(&bytes), Ok(event));
    }
    let refused = Unrecognized {
        buffer: TRB,
        refusal: Refusal::Type(3),
    };
    assert_eq!(parse_event(&TRB), Err(refused));
    let long = EventTrb::new_transfer_event_trb(0, 1 << 24, CompletionCode::Success, true, 1, 1);
    assert_eq!(event_bytes(&long, 1), CTrb { low: 0, high: 8 });
}

#[test]
fn refused_bytes_cross() {
    let mut trb = TRB;
    for (trb_type, refusal) in [
        (19, Refusal::Optional(19)),
        (3, Refusal::Type(3)),
        (11, Refusal::Reserved),
    ] {
        trb[13] = trb_type << 2;
        assert_eq!(
            parse_command(&trb),
            CommandTrbVariant::Unrecognized(trb, refusal)
        );
    }
    trb[13] = 63 << 2;
    assert_eq!(
        parse_transfer(&trb),
        TransferTrbVariant::Unrecognized(trb, Refusal::Type(63))
    );
}

/// An answer is looked at whole, so that memcheck tells of a field that was not written.
#[test]
fn every_type_is_read_whole() {
    let (mut commands, mut transfers) = (0, 0);
    for trb_type in 0..64 {
        let mut trb = TRB;
        (trb[0], trb[13]) = (0, trb_type << 2);
        let (command, transfer) = (parse_command(&trb), parse_transfer(&trb));
        assert_eq!(
            (command, transfer),
            (parse_command(&trb), parse_transfer(&trb))
        );
        commands += u32::from(!matches!(command, CommandTrbVariant::Unrecognized(..)));
        transfers += u32::from(!matches!(transfer, TransferTrbVariant::Unrecognized(..)));
    }
    assert_eq!((commands, transfers), (11, 7));
}

#[test]
fn a_link_crosses() {
    let link =
        |low, flags| parse_link(&[low, 2, 3, 4, 5, 6, 7, 8, 0, 0, 0, 0, flags, 6 << 2, 0, 0]);
    let of = |cleared, toggle, completion| CLink {
        pointer: 0x0807_0605_0403_0210,
        link: true,
        cleared,
        toggle,
        completion,
    };
    assert_eq!(link(0x10, 0), of(false, false, false));
    assert_eq!(link(0x18, 0), of(true, false, false));
    assert_eq!(link(0x10, 0x02), of(false, true, false));
    assert_eq!(link(0x10, 0x20), of(false, false, true));
    let other = CLink {
        pointer: 0,
        link: false,
        ..of(false, false, false)
    };
    assert_eq!(parse_link(&TRB), other);
    assert_eq!((trb_type(&TRB), cycle_bit(&TRB)), (3, true));
}

#[test]
fn parts_and_numbers_cross() {
    let mut mem = vec![0; 0x1_0000];
    mem[0x201..0x211].copy_from_slice(&TRB);
    let part = |offset, length, refusal| CPart {
        offset,
        length,
        refusal,
    };
    let at = START + 0x201;
    let data = |pointer, length, immediate| data(START, &mem, pointer, length, immediate);
    assert_eq!(data(at, 0xfdff, false), part(0x0201, 0xfdff, 0));
    assert_eq!(data(at, 0xfe00, false), part(0, 0, 1));
    assert_eq!(data(START, 0, true), part(0, 0, 13));
    let number = |value, refusal| CNumber { value, refusal };
    assert_eq!(read2(START, &mem, at), number(0x0201, 0));
    assert_eq!(read4(START, &mem, at), number(0x0403_0201, 0));
    assert_eq!(read8(START, &mem, at), number(0x0807_0605_0403_0201, 0));
    assert_eq!(read8(START, &mem, START + 0xfff9), number(0, 1));
    assert_eq!(read_trb(START, &mem, at), Ok(TRB));
    assert_eq!(read_trb(START, &mem, START + 0xfff1), Err(1));
    assert_eq!(write_trb(START, &mut mem, START + 0xfff1, &TRB), 1);
    assert_eq!(write_trb(START, &mut mem, START + 0xfff0, &TRB), 0);
    assert_eq!(mem[0xfff0..], TRB);
    let inside = |address, length| inside(START, &mem, address, length);
    assert!(inside(START + 0xffff, 1) && !inside(START + 0xffff, 2));
    assert!(inside(START, 1) && !inside(START - 1, 1));
}

#[test]
fn codes_cross() {
    let coded = |refusal, code| CCoded { refusal, code };
    assert_eq!(code_of(36), coded(0, CompletionCode::SplitTransactionError));
    assert_eq!(code_of(30), coded(12, CompletionCode::Invalid));
    let classes = [
        Class::Listed,
        Class::Reserved,
        Class::VendorError,
        Class::VendorInfo,
    ];
    assert_eq!([0, 30, 192, 224].map(|byte| class_of(byte)), classes);
}
