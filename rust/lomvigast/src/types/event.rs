use super::CompletionCode;

/// An event, as the controller puts it on the event ring (xHCI 6.4.2). xHCI has more kinds than stand here, and more will come:
/// a `match` has an arm for those that it does not know.
#[repr(u8)]
#[derive(Debug, Clone, Copy, PartialEq, Eq, Hash)]
#[non_exhaustive]
pub enum EventTrb {
    /// A transfer ended (xHCI 6.4.2.1).
    Transfer(TransferEventTrbData) = 32,
    /// A command ended (xHCI 6.4.2.2).
    CommandCompletion(CommandCompletionEventTrbData) = 33,
    /// A port changed (xHCI 6.4.2.3).
    PortStatusChange(PortStatusChangeEventTrbData) = 34,
}

/// Of a Transfer Event (xHCI 6.4.2.1).
#[repr(C)]
#[derive(Debug, Clone, Copy, PartialEq, Eq, Hash)]
pub struct TransferEventTrbData {
    /// The TRB that it is of, or an Event Data TRB's number.
    pub trb_pointer: u64,
    /// How many bytes were not transferred: 24 bits.
    pub trb_transfer_length: u32,
    /// How it ended.
    pub completion_code: CompletionCode,
    /// Whether an Event Data TRB made it.
    pub event_data: bool,
    /// Its endpoint.
    pub endpoint_id: u8,
    /// Its device slot.
    pub slot_id: u8,
}

/// Of a Command Completion Event (xHCI 6.4.2.2).
#[repr(C)]
#[derive(Debug, Clone, Copy, PartialEq, Eq, Hash)]
pub struct CommandCompletionEventTrbData {
    /// The command's TRB: a multiple of 16.
    pub command_trb_pointer: u64,
    /// What the command says it is: 24 bits.
    pub command_completion_parameter: u32,
    /// How it ended.
    pub completion_code: CompletionCode,
    /// Its device slot.
    pub slot_id: u8,
}

/// Of a Port Status Change Event (xHCI 6.4.2.3).
#[repr(C)]
#[derive(Debug, Clone, Copy, PartialEq, Eq, Hash)]
pub struct PortStatusChangeEventTrbData {
    /// The port that changed.
    pub port_id: u8,
}
