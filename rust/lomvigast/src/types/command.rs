use super::RawTrbBuffer;
use crate::Refusal;

/// A TRB of the command ring (xHCI 6.4.3).
#[repr(u8)]
#[derive(Debug, Clone, Copy, PartialEq, Eq, Hash)]
pub enum CommandTrbVariant {
    /// No Op (type 23).
    NoOp = 23,
    /// Enable Slot (9).
    EnableSlot = 9,
    /// Disable Slot (10).
    DisableSlot(DisableSlotCommandTrbData) = 10,
    /// Address Device (11).
    AddressDevice(AddressDeviceCommandTrbData) = 11,
    /// Configure Endpoint (12).
    ConfigureEndpoint(ConfigureEndpointCommandTrbData) = 12,
    /// Evaluate Context (13).
    EvaluateContext(EvaluateContextCommandTrbData) = 13,
    /// Reset Endpoint (14).
    ResetEndpoint(ResetEndpointCommandTrbData) = 14,
    /// Stop Endpoint (15).
    StopEndpoint(StopEndpointCommandTrbData) = 15,
    /// Set TR Dequeue Pointer (16).
    SetTrDequeuePointer(SetTrDequeuePointerCommandTrbData) = 16,
    /// Reset Device (17).
    ResetDevice(ResetDeviceCommandTrbData) = 17,
    /// Force Header (22), which is recognised and not taken apart.
    ForceHeader = 22,
    /// Bytes that were refused, with 9, 10 or 11.
    Unrecognized(RawTrbBuffer, Refusal) = 0,
}

/// Of a Disable Slot command (xHCI 6.4.3.3).
#[repr(C)]
#[derive(Debug, Clone, Copy, PartialEq, Eq, Hash)]
pub struct DisableSlotCommandTrbData {
    /// The device slot.
    pub slot_id: u8,
}

/// Of an Address Device command (xHCI 6.4.3.4).
#[repr(C)]
#[derive(Debug, Clone, Copy, PartialEq, Eq, Hash)]
pub struct AddressDeviceCommandTrbData {
    /// The input context: a multiple of 16.
    pub input_context_pointer: u64,
    /// The device slot.
    pub slot_id: u8,
    /// Whether the device is not to be sent its address.
    pub block_set_address_request: bool,
}

/// Of a Configure Endpoint command (xHCI 6.4.3.5).
#[repr(C)]
#[derive(Debug, Clone, Copy, PartialEq, Eq, Hash)]
pub struct ConfigureEndpointCommandTrbData {
    /// The input context: a multiple of 16.
    pub input_context_pointer: u64,
    /// The device slot.
    pub slot_id: u8,
    /// Whether the slot is to be deconfigured.
    pub deconfigure: bool,
}

/// Of an Evaluate Context command (xHCI 6.4.3.6).
#[repr(C)]
#[derive(Debug, Clone, Copy, PartialEq, Eq, Hash)]
pub struct EvaluateContextCommandTrbData {
    /// The input context: a multiple of 16.
    pub input_context_pointer: u64,
    /// The device slot.
    pub slot_id: u8,
}

/// Of a Reset Endpoint command (xHCI 6.4.3.7).
#[repr(C)]
#[derive(Debug, Clone, Copy, PartialEq, Eq, Hash)]
pub struct ResetEndpointCommandTrbData {
    /// The endpoint: five bits.
    pub endpoint_id: u8,
    /// The device slot.
    pub slot_id: u8,
}

/// Of a Stop Endpoint command (xHCI 6.4.3.8).
#[repr(C)]
#[derive(Debug, Clone, Copy, PartialEq, Eq, Hash)]
pub struct StopEndpointCommandTrbData {
    /// The endpoint: five bits.
    pub endpoint_id: u8,
    /// The device slot.
    pub slot_id: u8,
}

/// Of a Set TR Dequeue Pointer command (xHCI 6.4.3.9).
#[repr(C)]
#[derive(Debug, Clone, Copy, PartialEq, Eq, Hash)]
pub struct SetTrDequeuePointerCommandTrbData {
    /// The place that the ring is to have: a multiple of 16.
    pub dequeue_pointer: u64,
    /// The stream.
    pub stream_id: u16,
    /// The endpoint: five bits.
    pub endpoint_id: u8,
    /// The device slot.
    pub slot_id: u8,
    /// The cycle state that the ring is to have.
    pub dequeue_cycle_state: bool,
    /// The stream context type, 0 to 7.
    pub stream_context_type: u8,
}

/// Of a Reset Device command (xHCI 6.4.3.10).
#[repr(C)]
#[derive(Debug, Clone, Copy, PartialEq, Eq, Hash)]
pub struct ResetDeviceCommandTrbData {
    /// The device slot.
    pub slot_id: u8,
}
