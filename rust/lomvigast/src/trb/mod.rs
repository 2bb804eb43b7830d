//! Transfer Request Blocks (xHCI 4.11, 6.4): what the driver writes, parsed, and events, written and read back.

mod codes;
mod command;
mod event;
mod link;
mod transfer;

pub use crate::types::{
    AddressDeviceCommandTrbData, Class, CommandCompletionEventTrbData, CommandTrbVariant,
    CompletionCode, ConfigureEndpointCommandTrbData, DataStageTrb, DisableSlotCommandTrbData,
    EvaluateContextCommandTrbData, EventDataTrb, EventTrb, LinkTrb, NoOpTrb, NormalTrb,
    PortStatusChangeEventTrbData, RawTrb, RawTrbBuffer, ResetDeviceCommandTrbData,
    ResetEndpointCommandTrbData, SetTrDequeuePointerCommandTrbData, SetupStageTrb, StatusStageTrb,
    StopEndpointCommandTrbData, TransferEventTrbData, TransferTrbVariant, Unrecognized,
};
pub use transfer::TrbDmaInfo;

use crate::ffi;

/// The type number, byte 13 shifted right by 2 (xHCI table 6-91).
///
/// ```
/// assert_eq!(lomvigast::trb::trb_type(&[0, 0, 0, 0, 0, 0, 0, 0, 0, 0, 0, 0, 0, 0x1b, 0, 0]), 6);
/// ```
#[inline]
pub fn trb_type(trb: &RawTrbBuffer) -> u8 {
    ffi::trb_type(trb)
}

/// The cycle bit, bit 0 of byte 12 (xHCI 4.9.2).
#[inline]
pub fn cycle_bit(trb: &RawTrbBuffer) -> bool {
    ffi::cycle_bit(trb)
}
