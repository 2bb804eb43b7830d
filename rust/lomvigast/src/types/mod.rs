//! Plain data. What crosses to the archives is laid out as they write and read it (the definitions under crates/trb_ffi/specs,
//! crates/words/specs and crates/lomvigast_ffi/specs say which byte holds what): an enum's tag is its first byte, and its
//! records are C's. Nothing here calls anything.
//!
//! `#[non_exhaustive]` is what a request to come adds to: refusals, events, a ring's state. What xHCI or this core fixes is not,
//! so that a caller can match all of it: above all a chase's four answers.

mod chase;
mod codes;
mod command;
mod event;
mod link;
mod state;
mod transfer;

pub use chase::{Answer, Chase, LinkedState, Notes};
pub use codes::{Class, CompletionCode};
pub use command::{
    AddressDeviceCommandTrbData, CommandTrbVariant, ConfigureEndpointCommandTrbData,
    DisableSlotCommandTrbData, EvaluateContextCommandTrbData, ResetDeviceCommandTrbData,
    ResetEndpointCommandTrbData, SetTrDequeuePointerCommandTrbData, StopEndpointCommandTrbData,
};
pub use event::{
    CommandCompletionEventTrbData, EventTrb, PortStatusChangeEventTrbData, TransferEventTrbData,
};
pub use link::LinkTrb;
pub use state::{RingState, State};
pub use transfer::{
    DataStageTrb, EventDataTrb, NoOpTrb, NormalTrb, SetupStageTrb, StatusStageTrb,
    TransferTrbVariant,
};

use crate::Refusal;
use core::error::Error;
use core::fmt;

/// The sixteen bytes of a TRB.
pub type RawTrbBuffer = [u8; 16];

/// A TRB and where it stands in guest memory.
#[repr(C)]
#[derive(Debug, Clone, Copy, PartialEq, Eq, Hash)]
pub struct RawTrb {
    /// The guest address of its first byte.
    pub address: u64,
    /// Its bytes.
    pub buffer: RawTrbBuffer,
}

/// Sixteen bytes that a parser refused.
#[derive(Debug, Clone, Copy, PartialEq, Eq, Hash)]
pub struct Unrecognized {
    /// The bytes that were given.
    pub buffer: RawTrbBuffer,
    /// Why they were refused.
    pub refusal: Refusal,
}

impl fmt::Display for Unrecognized {
    fn fmt(&self, f: &mut fmt::Formatter<'_>) -> fmt::Result {
        self.refusal.fmt(f)
    }
}

impl Error for Unrecognized {}

impl From<Unrecognized> for Refusal {
    fn from(unrecognized: Unrecognized) -> Self {
        unrecognized.refusal
    }
}
