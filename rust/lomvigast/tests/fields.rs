//! Every field of every TRB comes from its own bytes (xHCI 6.4; document 01, "TRB bytes"): each has a value of its own here.

use lomvigast::linked_ring::{Answer, LinkedRing, Notes};
use lomvigast::trb::*;
use lomvigast::GuestMemory;

/// A TRB of a type whose other bytes are these.
fn trb(trb_type: u8, mut bytes: RawTrbBuffer) -> RawTrbBuffer {
    bytes[13] |= trb_type << 2;
    bytes
}

/// Pointer 0x0807060504030210, byte 13's bit 1 set, endpoint 0x13 with the bits above it set, slot 0x31.
fn command(trb_type: u8) -> CommandTrbVariant {
    let bytes = [
        0x10, 2, 3, 4, 5, 6, 7, 8, 0, 0, 0x21, 0x22, 0, 2, 0xf3, 0x31,
    ];
    CommandTrbVariant::parse(trb(trb_type, bytes))
}

const POINTER: u64 = 0x0807_0605_0403_0210;

#[test]
fn commands() {
    use CommandTrbVariant as C;
    assert_eq!(command(9), C::EnableSlot);
    assert_eq!(
        command(10),
        C::DisableSlot(DisableSlotCommandTrbData { slot_id: 0x31 })
    );
    let device = AddressDeviceCommandTrbData {
        input_context_pointer: POINTER,
        block_set_address_request: true,
        slot_id: 0x31,
    };
    assert_eq!(command(11), C::AddressDevice(device));
    let endpoint = ConfigureEndpointCommandTrbData {
        input_context_pointer: POINTER,
        deconfigure: true,
        slot_id: 0x31,
    };
    assert_eq!(command(12), C::ConfigureEndpoint(endpoint));
    let context = EvaluateContextCommandTrbData {
        input_context_pointer: POINTER,
        slot_id: 0x31,
    };
    assert_eq!(command(13), C::EvaluateContext(context));
    let (slot_id, endpoint_id) = (0x31, 0x13);
    let reset = ResetEndpointCommandTrbData {
        slot_id,
        endpoint_id,
    };
    assert_eq!(command(14), C::ResetEndpoint(reset));
    let stop = StopEndpointCommandTrbData {
        endpoint_id,
        slot_id,
    };
    assert_eq!(command(15), C::StopEndpoint(stop));
    let place = SetTrDequeuePointerCommandTrbData {
        dequeue_cycle_state: false,
        stream_context_type: 0,
        dequeue_pointer: POINTER,
        stream_id: 0x2221,
        endpoint_id,
        slot_id,
    };
    assert_eq!(command(16), C::SetTrDequeuePointer(place));
    assert_eq!(
        command(17),
        C::ResetDevice(ResetDeviceCommandTrbData { slot_id })
    );
    assert_eq!((command(22), command(23)), (C::ForceHeader, C::NoOp));
}

#[test]
fn flags_of_commands() {
    let plain = |trb_type| CommandTrbVariant::parse(trb(trb_type, [0; 16]));
    let low = |byte: u8| {
        let mut bytes = [0; 16];
        bytes[0] = byte;
        CommandTrbVariant::parse(trb(16, bytes))
    };
    assert!(
        matches!(plain(11), CommandTrbVariant::AddressDevice(d) if !d.block_set_address_request)
    );
    assert!(matches!(plain(12), CommandTrbVariant::ConfigureEndpoint(d) if !d.deconfigure));
    let state = |byte| match low(byte) {
        CommandTrbVariant::SetTrDequeuePointer(d) => (d.dequeue_cycle_state, d.stream_context_type),
        other => panic!("{other:?}"),
    };
    assert_eq!(
        [1, 2, 4, 8, 0xf].map(state),
        [(true, 0), (false, 1), (false, 2), (false, 4), (true, 7)]
    );
}

/// Bytes 0 to 11 are 1 to 12; then byte 12 and byte 14.
fn transfer(trb_type: u8, flags: u8, last: u8) -> TransferTrbVariant {
    let bytes = [1, 2, 3, 4, 5, 6, 7, 8, 9, 10, 11, 12, flags, 0, last, 0];
    TransferTrbVariant::parse(trb(trb_type, bytes))
}

/// Each bit of byte 12 by itself, and bit 0 of byte 14.
const FLAGS: [(u8, u8); 9] = [
    (0x01, 0),
    (0x02, 0),
    (0x04, 0),
    (0x08, 0),
    (0x10, 0),
    (0x20, 0),
    (0x40, 0),
    (0x80, 0),
    (0, 1),
];

#[test]
fn transfers() {
    use TransferTrbVariant as T;
    for (flags, last) in FLAGS {
        let (short, chain, completion) = (flags == 4, flags == 0x10, flags == 0x20);
        let (immediate, direction) = (flags == 0x40, last == 1);
        let normal = NormalTrb {
            data_pointer: 0x0807_0605_0403_0201,
            transfer_length: 0x1_0a09,
            interrupt_on_short: short,
            chain,
            interrupt_on_completion: completion,
            immediate_data: immediate,
        };
        assert_eq!(transfer(1, flags, last), T::Normal(normal));
        let setup = SetupStageTrb {
            request_type: 1,
            request: 2,
            value: 0x0403,
            index: 0x0605,
            length: 0x0807,
            interrupt_on_completion: completion,
        };
        assert_eq!(transfer(2, flags, last), T::SetupStage(setup));
        let data = DataStageTrb {
            data_pointer: 0x0807_0605_0403_0201,
            transfer_length: 0x1_0a09,
            chain,
            interrupt_on_completion: completion,
            interrupt_on_short: short,
            immediate_data: immediate,
            direction,
        };
        assert_eq!(transfer(3, flags, last), T::DataStage(data));
        let interrupt_on_completion = completion;
        let status = StatusStageTrb {
            chain,
            interrupt_on_completion,
            direction,
        };
        assert_eq!(transfer(4, flags, last), T::StatusStage(status));
        let event_data = 0x0807_0605_0403_0201;
        let data = EventDataTrb {
            event_data,
            chain,
            interrupt_on_completion,
        };
        assert_eq!(transfer(7, flags, last), T::EventData(data));
        assert_eq!(
            transfer(8, flags, last),
            T::NoOp(NoOpTrb {
                chain,
                interrupt_on_completion
            })
        );
    }
    assert_eq!(transfer(5, 0, 0), T::Isoch);
}

#[test]
fn links() {
    let link = |low, flags| {
        LinkTrb::parse(trb(
            6,
            [low, 2, 3, 4, 5, 6, 7, 8, 0, 0, 0, 0, flags, 0, 0, 0],
        ))
    };
    let expected = |pointer_bits_cleared, toggle_cycle, interrupt_on_completion| {
        Some(LinkTrb {
            ring_segment_pointer: POINTER,
            pointer_bits_cleared,
            toggle_cycle,
            interrupt_on_completion,
        })
    };
    assert_eq!(link(0x10, 0), expected(false, false, false));
    assert_eq!(link(0x1f, 0), expected(true, false, false));
    assert_eq!(link(0x10, 0x02), expected(false, true, false));
    assert_eq!(link(0x10, 0x20), expected(false, false, true));
}

#[test]
fn notes() {
    let notes = |low, flags| {
        let mut bytes = [0; 32];
        bytes[..16].copy_from_slice(&trb(
            6,
            [low, 0, 0, 0, 0, 0, 0, 0, 0, 0, 0, 0, flags, 0, 0, 0],
        ));
        let chase = LinkedRing::new(0, true).next_trb(GuestMemory::new(&bytes));
        assert_eq!(chase.answer, Answer::NothingNew);
        chase.notes
    };
    let expected = |cleared, completion| Notes {
        links: 1,
        cleared,
        completion,
    };
    assert_eq!(notes(0x10, 0x01), expected(false, false));
    assert_eq!(notes(0x18, 0x01), expected(true, false));
    assert_eq!(notes(0x10, 0x21), expected(false, true));
}

#[test]
fn events() {
    let code = CompletionCode::StallError;
    let transfer =
        EventTrb::new_transfer_event_trb(0x0807_0605_0403_0201, 0x0b_0a09, code, true, 0x13, 0x31);
    let command = EventTrb::new_command_completion_event_trb(POINTER, 0x0b_0a09, code, 0x31);
    let port = EventTrb::new_port_status_change_event_trb(0x41);
    let written = [
        (
            transfer,
            [1, 2, 3, 4, 5, 6, 7, 8, 9, 10, 11, 6, 4, 32 << 2, 0x13, 0x31],
        ),
        (
            command,
            [0x10, 2, 3, 4, 5, 6, 7, 8, 9, 10, 11, 6, 0, 33 << 2, 0, 0x31],
        ),
        (
            port,
            [0, 0, 0, 0x41, 0, 0, 0, 0, 0, 0, 0, 1, 0, 34 << 2, 0, 0],
        ),
    ];
    for (event, bytes) in written {
        assert_eq!(event.to_bytes(false), Ok(bytes));
        assert_eq!(EventTrb::parse(bytes), Ok(event));
    }
}
