use super::{CompletionCode, RawTrbBuffer, Unrecognized};
use crate::types::{
    CommandCompletionEventTrbData, EventTrb, PortStatusChangeEventTrbData, TransferEventTrbData,
};
use crate::{ffi, Refusal};

impl EventTrb {
    /// A Transfer Event. Whether it can be written is judged by [`EventTrb::to_bytes`].
    #[inline]
    pub const fn new_transfer_event_trb(
        trb_pointer: u64,
        trb_transfer_length: u32,
        completion_code: CompletionCode,
        event_data: bool,
        endpoint_id: u8,
        slot_id: u8,
    ) -> Self {
        Self::Transfer(TransferEventTrbData {
            trb_pointer,
            trb_transfer_length,
            completion_code,
            event_data,
            endpoint_id,
            slot_id,
        })
    }

    /// A Command Completion Event. Whether it can be written is judged by [`EventTrb::to_bytes`].
    #[inline]
    pub const fn new_command_completion_event_trb(
        command_trb_pointer: u64,
        command_completion_parameter: u32,
        completion_code: CompletionCode,
        slot_id: u8,
    ) -> Self {
        Self::CommandCompletion(CommandCompletionEventTrbData {
            command_trb_pointer,
            command_completion_parameter,
            completion_code,
            slot_id,
        })
    }

    /// A Port Status Change Event, which can always be written.
    #[inline]
    pub const fn new_port_status_change_event_trb(port_id: u8) -> Self {
        Self::PortStatusChange(PortStatusChangeEventTrbData { port_id })
    }

    /// The event's bytes with this cycle bit.
    ///
    /// ```
    /// use lomvigast::trb::{CompletionCode, EventTrb};
    /// use lomvigast::Refusal;
    ///
    /// let event = EventTrb::new_command_completion_event_trb(0x1000, 0, CompletionCode::Success, 1);
    /// let bytes = event.to_bytes(true)?;
    /// assert_eq!(bytes, [0, 0x10, 0, 0, 0, 0, 0, 0, 0, 0, 0, 1, 1, 0x84, 0, 1]);
    /// assert_eq!(EventTrb::parse(bytes), Ok(event));
    ///
    /// let long = EventTrb::new_transfer_event_trb(0, 1 << 24, CompletionCode::Success, false, 1, 1);
    /// assert_eq!(long.to_bytes(true), Err(Refusal::Event));
    /// # Ok::<(), Refusal>(())
    /// ```
    ///
    /// # Errors
    ///
    /// Refused with 8: a command pointer with low four bits set, a parameter or length of 2^24 or more.
    #[inline]
    pub fn to_bytes(&self, cycle_bit: bool) -> Result<RawTrbBuffer, Refusal> {
        let trb = ffi::event_bytes(self, cycle_bit.into());
        // Left early, and not matched: so the compiler keeps the bytes together.
        if trb.high < ffi::REFUSED_BELOW {
            return Err(Refusal::of(trb.high as u8, 0));
        }
        Ok(trb.into())
    }

    /// The event that was written as these bytes, with either cycle bit.
    ///
    /// # Errors
    ///
    /// Refused with 10 (another type), 12 (a code that the event cannot hold) or 11 (a bit that no event of its type has), in
    /// this order, and with the bytes beside it.
    #[inline]
    pub fn parse(bytes: RawTrbBuffer) -> Result<Self, Unrecognized> {
        ffi::parse_event(&bytes)
    }
}
