use super::RawTrbBuffer;
use crate::Refusal;

/// A TRB of a transfer ring (xHCI 6.4.1). Links are not among them: [`crate::linked_ring::LinkedRing`] follows those.
#[repr(u8)]
#[derive(Debug, Clone, Copy, PartialEq, Eq, Hash)]
pub enum TransferTrbVariant {
    /// Normal (type 1).
    Normal(NormalTrb) = 1,
    /// Setup Stage (2).
    SetupStage(SetupStageTrb) = 2,
    /// Data Stage (3).
    DataStage(DataStageTrb) = 3,
    /// Status Stage (4).
    StatusStage(StatusStageTrb) = 4,
    /// Isoch (5), which is recognised and not taken apart.
    Isoch = 5,
    /// Event Data (7).
    EventData(EventDataTrb) = 7,
    /// No Op (8).
    NoOp(NoOpTrb) = 8,
    /// Bytes that were refused, with 10.
    Unrecognized(RawTrbBuffer, Refusal) = 0,
}

/// A Normal TRB (xHCI 6.4.1.1).
#[repr(C)]
#[derive(Debug, Clone, Copy, PartialEq, Eq, Hash)]
pub struct NormalTrb {
    /// Where the data is, or the data itself.
    pub data_pointer: u64,
    /// How many bytes: 17 bits.
    pub transfer_length: u32,
    /// Whether the next TRB belongs to the same transfer.
    pub chain: bool,
    /// Whether its end makes an event.
    pub interrupt_on_completion: bool,
    /// Whether the pointer's bytes are the data.
    pub immediate_data: bool,
    /// Whether a short packet makes an event.
    pub interrupt_on_short: bool,
}

/// A Setup Stage TRB (xHCI 6.4.1.2.1).
#[repr(C)]
#[derive(Debug, Clone, Copy, PartialEq, Eq, Hash)]
pub struct SetupStageTrb {
    /// `bmRequestType` of USB's setup data.
    pub request_type: u8,
    /// `bRequest`.
    pub request: u8,
    /// `wValue`.
    pub value: u16,
    /// `wIndex`.
    pub index: u16,
    /// `wLength`.
    pub length: u16,
    /// Whether its end makes an event.
    pub interrupt_on_completion: bool,
}

/// A Data Stage TRB (xHCI 6.4.1.2.2).
#[repr(C)]
#[derive(Debug, Clone, Copy, PartialEq, Eq, Hash)]
pub struct DataStageTrb {
    /// Where the data is, or the data itself.
    pub data_pointer: u64,
    /// How many bytes: 17 bits.
    pub transfer_length: u32,
    /// Whether the next TRB belongs to the same transfer.
    pub chain: bool,
    /// Whether its end makes an event.
    pub interrupt_on_completion: bool,
    /// Whether the pointer's bytes are the data.
    pub immediate_data: bool,
    /// Whether a short packet makes an event.
    pub interrupt_on_short: bool,
    /// Whether the device sends.
    pub direction: bool,
}

/// A Status Stage TRB (xHCI 6.4.1.2.3).
#[repr(C)]
#[derive(Debug, Clone, Copy, PartialEq, Eq, Hash)]
pub struct StatusStageTrb {
    /// Whether the next TRB belongs to the same transfer.
    pub chain: bool,
    /// Whether its end makes an event.
    pub interrupt_on_completion: bool,
    /// Whether the device sends.
    pub direction: bool,
}

/// An Event Data TRB (xHCI 6.4.4.2).
#[repr(C)]
#[derive(Debug, Clone, Copy, PartialEq, Eq, Hash)]
pub struct EventDataTrb {
    /// The number that its event carries.
    pub event_data: u64,
    /// Whether the next TRB belongs to the same transfer.
    pub chain: bool,
    /// Whether its end makes an event.
    pub interrupt_on_completion: bool,
}

/// A No Op TRB (xHCI 6.4.1.4).
#[repr(C)]
#[derive(Debug, Clone, Copy, PartialEq, Eq, Hash)]
pub struct NoOpTrb {
    /// Whether the next TRB belongs to the same transfer, where usbvfiod writes a warning.
    pub chain: bool,
    /// Whether its end makes an event.
    pub interrupt_on_completion: bool,
}
