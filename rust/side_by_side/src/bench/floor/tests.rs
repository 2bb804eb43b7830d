//! The floor does the port's work: on the inputs of the comparison their answers are the same.

use super::*;
use lomvigast::linked_ring::{Answer, LinkedRing};
use lomvigast::trb::{CommandTrbVariant, TransferTrbVariant};
use lomvigast::GuestMemoryMut;

/// A command of the port's, as C has it.
fn command(kind: u8, variant: CommandTrbVariant) -> Parsed {
    use CommandTrbVariant as C;
    let none = Parsed {
        kind,
        ..Parsed::default()
    };
    let (slot, endpoint, pointer, flag) = match variant {
        C::NoOp | C::EnableSlot | C::ForceHeader => (0, 0, 0, false),
        C::DisableSlot(d) => (d.slot_id, 0, 0, false),
        C::ResetDevice(d) => (d.slot_id, 0, 0, false),
        C::AddressDevice(d) => (
            d.slot_id,
            0,
            d.input_context_pointer,
            d.block_set_address_request,
        ),
        C::ConfigureEndpoint(d) => (d.slot_id, 0, d.input_context_pointer, d.deconfigure),
        C::EvaluateContext(d) => (d.slot_id, 0, d.input_context_pointer, false),
        C::ResetEndpoint(d) => (d.slot_id, d.endpoint_id, 0, false),
        C::StopEndpoint(d) => (d.slot_id, d.endpoint_id, 0, false),
        C::SetTrDequeuePointer(d) => {
            return Parsed {
                flag: d.dequeue_cycle_state,
                context_type: d.stream_context_type,
                pointer: d.dequeue_pointer,
                stream: d.stream_id,
                endpoint: d.endpoint_id,
                slot: d.slot_id,
                ..none
            }
        }
        C::Unrecognized(raw, _) => return Parsed { raw, ..none },
    };
    Parsed {
        slot,
        endpoint,
        pointer,
        flag,
        ..none
    }
}

/// A transfer TRB of the port's, as C has it.
fn transfer(kind: u8, variant: TransferTrbVariant) -> Parsed {
    use TransferTrbVariant as T;
    let none = Parsed {
        kind,
        ..Parsed::default()
    };
    match variant {
        T::Normal(d) => Parsed {
            pointer: d.data_pointer,
            length: d.transfer_length,
            short_packet: d.interrupt_on_short,
            chain: d.chain,
            completion: d.interrupt_on_completion,
            immediate: d.immediate_data,
            ..none
        },
        T::SetupStage(d) => Parsed {
            request_type: d.request_type,
            request: d.request,
            value: d.value,
            index: d.index,
            length: d.length.into(),
            completion: d.interrupt_on_completion,
            ..none
        },
        T::DataStage(d) => Parsed {
            pointer: d.data_pointer,
            length: d.transfer_length,
            short_packet: d.interrupt_on_short,
            chain: d.chain,
            completion: d.interrupt_on_completion,
            immediate: d.immediate_data,
            direction: d.direction,
            ..none
        },
        T::StatusStage(d) => Parsed {
            chain: d.chain,
            completion: d.interrupt_on_completion,
            direction: d.direction,
            ..none
        },
        T::Isoch => none,
        T::EventData(d) => Parsed {
            pointer: d.event_data,
            chain: d.chain,
            completion: d.interrupt_on_completion,
            ..none
        },
        T::NoOp(d) => Parsed {
            chain: d.chain,
            completion: d.interrupt_on_completion,
            ..none
        },
        T::Unrecognized(raw, _) => Parsed { raw, ..none },
    }
}

#[test]
fn the_same_trbs_are_parsed() {
    let commands = inputs::commands().into_iter().map(|trb| (true, trb));
    let transfers = inputs::transfers().into_iter().map(|trb| (false, trb));
    for (is_command, trb) in commands.chain(transfers).chain(inputs::mixed()) {
        let mut parsed = Parsed::default();
        let kind = trb[13] >> 2;
        let expected = if is_command {
            floor_parse_command(&trb, &mut parsed);
            command(kind, CommandTrbVariant::parse(trb))
        } else {
            floor_parse_transfer(&trb, &mut parsed);
            transfer(kind, TransferTrbVariant::parse(trb))
        };
        assert_eq!(parsed, expected);
    }
}

#[test]
fn the_same_events_are_written_and_read() {
    for (event, ours) in events().iter().zip(port::events()) {
        for cycle in [false, true] {
            let mut bytes = [0xff; 16];
            floor_event_bytes(event, cycle, &mut bytes);
            assert_eq!(Ok(bytes), ours.to_bytes(cycle));
            let mut read = Event::default();
            floor_parse_event(&bytes, &mut read);
            assert_eq!(read, *event);
        }
    }
}

#[test]
fn the_same_links_are_followed() {
    for links in [0, 1, 16] {
        let bytes = inputs::linked(links);
        let mut ours = LinkedRing::new(0, true);
        let mut ring = Ring {
            place: 0,
            cycle: true,
        };
        for _ in 0..ROUND {
            let mut chase = Chase::default();
            // SAFETY: as for `next_trb`.
            unsafe { floor_next_trb(bytes.as_ptr(), &mut ring, &mut chase) };
            let expected = ours.next_trb(GuestMemory::new(&bytes));
            let Answer::Trb(trb) = expected.answer else {
                panic!("{expected:?}")
            };
            assert_eq!(
                (chase.kind, chase.trb, chase.address),
                (1, trb.buffer, trb.address)
            );
            assert_eq!(
                (chase.links, expected.notes.links),
                (links as u16, links as u16)
            );
            floor_advance(&mut ring);
            ours.advance();
            assert_eq!((ring.place, ring.cycle), ours.get_dequeue_pointer());
        }
    }
}

#[test]
fn the_same_slots_are_filled() {
    for segments in [1, 4] {
        let mut bytes = inputs::event_ring(segments, &[[0; 16]; ROUND]);
        let mut ring = configured(&bytes, segments);
        let mut same = bytes.clone();
        let mut memory = GuestMemoryMut::new(&mut same);
        let mut ours = EventRing::new();
        ours.configure(memory.shared(), inputs::TABLE, segments)
            .expect("a good table");
        for (event, ours_event) in events().iter().zip(port::events()) {
            // SAFETY: as for `add`.
            assert!(unsafe { floor_add(bytes.as_mut_ptr(), &mut ring, event, 0) });
            assert_eq!(ours.enqueue(&mut memory, &ours_event, 0), Ok(()));
            let state = ours.state();
            assert_eq!((ring.place, ring.remaining), (state.place, state.remaining));
            assert_eq!((ring.index, ring.cycle), (state.index, state.cycle));
        }
        assert_eq!(bytes, same);
    }
}

#[test]
fn a_round_is_taken() {
    let bytes = inputs::event_ring(4, &port::written());
    let mut reader = configured(&bytes, 4);
    for event in port::written() {
        let mut taken = [0; 16];
        // SAFETY: as for `add`.
        assert!(unsafe { floor_take(bytes.as_ptr(), &mut reader, &mut taken) });
        assert_eq!(taken, event);
    }
    assert!(!reader.cycle && reader.index == 0);
}
