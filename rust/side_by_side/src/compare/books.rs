//! The original's answers and questions in the port's types.

use lomvigast::linked_ring::{Answer, Chase, Notes};
use lomvigast::trb as p;
use lomvigast::Refusal;
use original::device::bus::Memory;
use original::device::xhci::linked_ring::LinkedRing;
use original::device::xhci::trb as o;
use std::panic::{catch_unwind, AssertUnwindSafe};

/// What an action of the original gives, or `None` if it panics.
pub fn unless_panicked<T>(action: impl FnOnce() -> T) -> Option<T> {
    catch_unwind(AssertUnwindSafe(action)).ok()
}

macro_rules! codes {
    ($($name:ident)*) => {
        pub fn original_code(code: p::CompletionCode) -> o::CompletionCode {
            match code {
                $(p::CompletionCode::$name => o::CompletionCode::$name,)*
            }
        }
    };
}

codes! {
    Invalid Success DataBufferError BabbleDetectedError UsbTransactionError TrbError StallError ResourceError
    BandwidthError NoSlotsAvailableError InvalidStreamTypeError SlotNotEnabledError EndpointNotEnabledError
    ShortPacket RingUnderrun RingOverrun VfEventRingFullError ParameterError BandwidthOverrunError
    ContextStateError NoPingResponseError EventRingFullError IncompatibleDeviceError MissedServiceError
    CommandRingStopped CommandAborted Stopped StoppedLengthInvalid StoppedShortedPacket
    MaxExitLatencyTooLargeError IsochBufferOverrun EventLostError UndefinedError InvalidStreamIdError
    SecondaryBandwidthError SplitTransactionError
}

/// The original's event; its constructor panics where a Command Completion cannot be written.
pub fn original_event(event: &p::EventTrb) -> o::EventTrb {
    match *event {
        p::EventTrb::Transfer(t) => o::EventTrb::new_transfer_event_trb(
            t.trb_pointer,
            t.trb_transfer_length,
            original_code(t.completion_code),
            t.event_data,
            t.endpoint_id,
            t.slot_id,
        ),
        p::EventTrb::CommandCompletion(t) => o::EventTrb::new_command_completion_event_trb(
            t.command_trb_pointer,
            t.command_completion_parameter,
            original_code(t.completion_code),
            t.slot_id,
        ),
        p::EventTrb::PortStatusChange(t) => {
            o::EventTrb::new_port_status_change_event_trb(t.port_id)
        }
        other => panic!("the original has no event like {other:?}"),
    }
}

fn refusal(error: o::TrbParseError) -> Refusal {
    match error {
        o::TrbParseError::UnsupportedOptionalCommand(number, _) => Refusal::Optional(number),
        o::TrbParseError::UnknownTrbType(number) => Refusal::Type(number),
        o::TrbParseError::RsvdZViolation => Refusal::Reserved,
    }
}

/// The same variant with the same fields.
macro_rules! same {
    ($data:ident: $($kind:tt)::+ { $($field:ident),* }) => {
        $($kind)::+ { $($field: $data.$field),* }
    };
}

pub fn command(variant: o::CommandTrbVariant) -> p::CommandTrbVariant {
    use o::CommandTrbVariant as O;
    use p::CommandTrbVariant as P;
    match variant {
        O::NoOp => P::NoOp,
        O::EnableSlot => P::EnableSlot,
        O::DisableSlot(d) => P::DisableSlot(same!(d: p::DisableSlotCommandTrbData { slot_id })),
        O::AddressDevice(d) => P::AddressDevice(same!(d: p::AddressDeviceCommandTrbData {
            input_context_pointer, block_set_address_request, slot_id
        })),
        O::ConfigureEndpoint(d) => {
            P::ConfigureEndpoint(same!(d: p::ConfigureEndpointCommandTrbData {
                input_context_pointer, deconfigure, slot_id
            }))
        }
        O::EvaluateContext(d) => P::EvaluateContext(same!(d: p::EvaluateContextCommandTrbData {
            input_context_pointer, slot_id
        })),
        O::ResetEndpoint(d) => P::ResetEndpoint(same!(d: p::ResetEndpointCommandTrbData {
            slot_id, endpoint_id
        })),
        O::StopEndpoint(d) => P::StopEndpoint(same!(d: p::StopEndpointCommandTrbData {
            endpoint_id, slot_id
        })),
        O::SetTrDequeuePointer(d) => {
            P::SetTrDequeuePointer(same!(d: p::SetTrDequeuePointerCommandTrbData {
                dequeue_cycle_state, stream_context_type, dequeue_pointer, stream_id, endpoint_id, slot_id
            }))
        }
        O::ResetDevice(d) => P::ResetDevice(same!(d: p::ResetDeviceCommandTrbData { slot_id })),
        O::ForceHeader => P::ForceHeader,
        O::Unrecognized(raw, error) => P::Unrecognized(raw, refusal(error)),
    }
}

pub fn transfer(variant: o::TransferTrbVariant) -> p::TransferTrbVariant {
    use o::TransferTrbVariant as O;
    use p::TransferTrbVariant as P;
    match variant {
        O::Normal(d) => P::Normal(same!(d: p::NormalTrb {
            data_pointer, transfer_length, interrupt_on_short, chain, interrupt_on_completion, immediate_data
        })),
        O::SetupStage(d) => P::SetupStage(same!(d: p::SetupStageTrb {
            request_type, request, value, index, length, interrupt_on_completion
        })),
        O::DataStage(d) => P::DataStage(same!(d: p::DataStageTrb {
            data_pointer, transfer_length, chain, interrupt_on_completion, interrupt_on_short, immediate_data,
            direction
        })),
        O::StatusStage(d) => P::StatusStage(same!(d: p::StatusStageTrb {
            chain, interrupt_on_completion, direction
        })),
        O::Isoch => P::Isoch,
        O::EventData(d) => P::EventData(same!(d: p::EventDataTrb {
            event_data, chain, interrupt_on_completion
        })),
        O::NoOp(d) => P::NoOp(same!(d: p::NoOpTrb { chain, interrupt_on_completion })),
        O::Unrecognized(raw, error) => P::Unrecognized(raw, refusal(error)),
    }
}

/// The Link, with the warning about its pointer as the port's field.
pub fn link(raw: p::RawTrbBuffer) -> Option<p::LinkTrb> {
    let link = o::LinkTrb::parse(raw)?;
    Some(p::LinkTrb {
        ring_segment_pointer: link.ring_segment_pointer,
        pointer_bits_cleared: !original::warnings().is_empty(),
        toggle_cycle: link.toggle_cycle,
        interrupt_on_completion: link.interrupt_on_completion,
    })
}

/// What a chase out of memory comes to here. The original has no word for it.
pub const REFUSED: Chase = Chase {
    answer: Answer::Refused(Refusal::Outside),
    notes: Notes {
        links: 0,
        cleared: false,
        completion: false,
    },
};

/// A chase of the original's: what it came to, with the warnings as notes.
///
/// Each fresh TRB is read in one piece, so the reads tell how many links were followed: all that were read but the last,
/// unless the last look found a stale TRB.
pub fn chase(memory: &Memory, ring: &mut LinkedRing) -> Chase {
    original::warnings();
    memory.bulk_reads();
    let found = ring.next_trb();
    let warnings = original::warnings();
    let count = |word: &str| warnings.iter().filter(|text| text.contains(word)).count();
    let answer = match found {
        Some(trb) => Answer::Trb(p::RawTrb {
            address: trb.address,
            buffer: trb.buffer,
        }),
        None if count("unreasonable") == 1 => Answer::TooManyLinks,
        None => Answer::NothingNew,
    };
    // The Link that was not followed is parsed too, with its warning.
    let unfollowed = answer == Answer::TooManyLinks && {
        let place = ring.get_dequeue_pointer().0 as usize;
        memory.bytes()[place] & 15 != 0
    };
    let notes = Notes {
        links: (memory.bulk_reads() - u64::from(answer != Answer::NothingNew)) as u16,
        cleared: count("RsvdZ") > usize::from(unfollowed),
        completion: count("IOC") > 0,
    };
    Chase { answer, notes }
}
