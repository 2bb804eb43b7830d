/// A Link TRB (xHCI 6.4.4.1).
#[derive(Debug, Clone, Copy, PartialEq, Eq, Hash)]
pub struct LinkTrb {
    /// Where it leads, with the low four bits cleared.
    pub ring_segment_pointer: u64,
    /// Whether any of those bits was set, where usbvfiod writes a warning.
    pub pointer_bits_cleared: bool,
    /// Whether following it flips the cycle state.
    pub toggle_cycle: bool,
    /// Whether its completion bit is set. Nothing here acts on it.
    pub interrupt_on_completion: bool,
}
