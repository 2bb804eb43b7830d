use super::RawTrbBuffer;
use crate::ffi;
use crate::types::CommandTrbVariant;

impl CommandTrbVariant {
    /// The command that sixteen bytes say; never fails, see [`CommandTrbVariant::Unrecognized`].
    ///
    /// ```
    /// use lomvigast::trb::CommandTrbVariant;
    /// use lomvigast::Refusal;
    ///
    /// let mut trb = [0; 16];
    /// trb[13] = 23 << 2;
    /// assert_eq!(CommandTrbVariant::parse(trb), CommandTrbVariant::NoOp);
    /// trb[13] = 18 << 2;
    /// assert_eq!(CommandTrbVariant::parse(trb), CommandTrbVariant::Unrecognized(trb, Refusal::Optional(18)));
    /// ```
    #[inline]
    pub fn parse(bytes: RawTrbBuffer) -> Self {
        ffi::parse_command(&bytes)
    }
}
