use super::RawTrbBuffer;
use crate::ffi;
use crate::types::LinkTrb;

impl LinkTrb {
    /// The Link, or `None` for a TRB of another type.
    ///
    /// ```
    /// use lomvigast::trb::LinkTrb;
    /// let mut trb = [0; 16];
    /// assert_eq!(LinkTrb::parse(trb), None);
    /// trb[0] = 0x48;
    /// trb[13] = 6 << 2;
    /// let link = LinkTrb::parse(trb).expect("type 6");
    /// assert_eq!((link.ring_segment_pointer, link.pointer_bits_cleared), (0x40, true));
    /// ```
    #[inline]
    pub fn parse(trb_bytes: RawTrbBuffer) -> Option<Self> {
        let link = ffi::parse_link(&trb_bytes);
        link.link.then_some(Self {
            ring_segment_pointer: link.pointer,
            pointer_bits_cleared: link.cleared,
            toggle_cycle: link.toggle,
            interrupt_on_completion: link.completion,
        })
    }
}
