//! Every value of the crate can be shown, cloned, compared and kept as a key, and goes to other threads.

use lomvigast::event_ring::*;
use lomvigast::linked_ring::*;
use lomvigast::trb::*;
use lomvigast::Refusal;
use std::collections::HashSet;
use std::fmt::Debug;
use std::hash::Hash;

fn value<T: Debug + Clone + Eq + Hash + Send + Sync>() {}

#[test]
fn each_type_is_a_value() {
    value::<(Refusal, Unrecognized, RawTrb, RawTrbBuffer)>();
    value::<(LinkedRing, Chase, Answer, Notes)>();
    value::<(EventRing, EventReader, RingState)>();
    value::<(CompletionCode, Class, LinkTrb)>();

    value::<EventTrb>();
    value::<(TransferEventTrbData, CommandCompletionEventTrbData)>();
    value::<PortStatusChangeEventTrbData>();

    value::<CommandTrbVariant>();
    value::<(DisableSlotCommandTrbData, AddressDeviceCommandTrbData)>();
    value::<ConfigureEndpointCommandTrbData>();
    value::<EvaluateContextCommandTrbData>();
    value::<(ResetEndpointCommandTrbData, StopEndpointCommandTrbData)>();
    value::<SetTrDequeuePointerCommandTrbData>();
    value::<ResetDeviceCommandTrbData>();

    value::<TransferTrbVariant>();
    value::<(NormalTrb, SetupStageTrb, DataStageTrb, StatusStageTrb)>();
    value::<(EventDataTrb, NoOpTrb)>();
}

#[test]
fn a_ring_is_found_again_by_what_it_holds() {
    let mut seen = HashSet::new();
    let mut ring = LinkedRing::new(0x40, true);
    assert!(seen.insert(ring.clone()));
    ring.advance();
    assert!(seen.insert(ring.clone()));
    ring.set_dequeue_pointer(0x40, true);
    assert!(!seen.insert(ring));
}
