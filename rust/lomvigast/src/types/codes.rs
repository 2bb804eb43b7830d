/// Declares the codes once: the enum, and all of them in a row.
macro_rules! codes {
    ($($name:ident = $number:literal,)*) => {
        /// How a command or transfer ended (xHCI table 6-90). The number 30 is reserved.
        #[allow(missing_docs)] // The table says what each is.
        #[repr(u8)]
        #[derive(Debug, Clone, Copy, PartialEq, Eq, Hash)]
        pub enum CompletionCode {
            $($name = $number,)*
        }

        impl CompletionCode {
            /// All 36 codes, in the order of their numbers.
            pub const ALL: [Self; 36] = [$(Self::$name,)*];
        }
    };
}

codes! {
    Invalid = 0,
    Success = 1,
    DataBufferError = 2,
    BabbleDetectedError = 3,
    UsbTransactionError = 4,
    TrbError = 5,
    StallError = 6,
    ResourceError = 7,
    BandwidthError = 8,
    NoSlotsAvailableError = 9,
    InvalidStreamTypeError = 10,
    SlotNotEnabledError = 11,
    EndpointNotEnabledError = 12,
    ShortPacket = 13,
    RingUnderrun = 14,
    RingOverrun = 15,
    VfEventRingFullError = 16,
    ParameterError = 17,
    BandwidthOverrunError = 18,
    ContextStateError = 19,
    NoPingResponseError = 20,
    EventRingFullError = 21,
    IncompatibleDeviceError = 22,
    MissedServiceError = 23,
    CommandRingStopped = 24,
    CommandAborted = 25,
    Stopped = 26,
    StoppedLengthInvalid = 27,
    StoppedShortedPacket = 28,
    MaxExitLatencyTooLargeError = 29,
    IsochBufferOverrun = 31,
    EventLostError = 32,
    UndefinedError = 33,
    InvalidStreamIdError = 34,
    SecondaryBandwidthError = 35,
    SplitTransactionError = 36,
}

/// What a byte in the place of a completion code can be (xHCI table 6-90).
#[repr(u8)]
#[derive(Debug, Clone, Copy, PartialEq, Eq, Hash)]
pub enum Class {
    /// One of the 36 listed codes.
    Listed = 0,
    /// 30, and 37 to 191.
    Reserved = 1,
    /// 192 to 223.
    VendorError = 2,
    /// 224 to 255.
    VendorInfo = 3,
}

impl From<CompletionCode> for u8 {
    #[inline]
    fn from(code: CompletionCode) -> Self {
        code as Self
    }
}
