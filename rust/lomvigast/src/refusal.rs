use core::error::Error;
use core::fmt;

/// Why a call was refused: one of the thirteen numbered refusals of document 01.
///
/// A refused call has changed no byte of guest memory and no ring. More numbers will come: a `match` has an arm for those that
/// it does not know, and takes none of them for success or for an idle ring.
///
/// ```
/// use lomvigast::Refusal;
/// assert_eq!(Refusal::Full.number(), 7);
/// assert_eq!(
///     Refusal::Full.to_string(),
///     "the ring is full: the slot after the present one is the reported place (refusal 7)"
/// );
/// ```
// The tags are the numbers: the archives write a refusal where it stands in an answer.
#[repr(u8)]
#[derive(Debug, Clone, Copy, PartialEq, Eq, Hash)]
#[non_exhaustive]
pub enum Refusal {
    /// 1: a byte to be touched is not inside the lent memory.
    Outside = 1,
    /// 2: the segment table's base is not a multiple of 64.
    TableBase = 2,
    /// 3: the segment table has 0 or more than 16 entries.
    TableEntries = 3,
    /// 4: the ring was never configured, or was reset, or its state breaks its own limits.
    State = 4,
    /// 5: a segment entry has a base that is no multiple of 64, a size of 0 or above 4096, or slots that are not all inside memory.
    Segment = 5,
    /// 6: the reported place is not a multiple of 16.
    Report = 6,
    /// 7: the ring is full: the slot after the present one is the reported place. The event is the caller's to keep.
    Full = 7,
    /// 8: an event that cannot be written: a command pointer with low bits set, a parameter or length of 2^24 or more.
    Event = 8,
    /// 9: an optional command, of the type that stands here (18 to 21).
    Optional(u8) = 9,
    /// 10: a type, which stands here, that this parser has no row for.
    Type(u8) = 10,
    /// 11: a bit is set that must be 0.
    Reserved = 11,
    /// 12: a completion code that this event cannot hold.
    Code = 12,
    /// 13: the data part was asked of a TRB that holds its data itself.
    Immediate = 13,
}

impl Refusal {
    /// Document 01's number.
    pub const fn number(self) -> u8 {
        match self {
            Self::Outside => 1,
            Self::TableBase => 2,
            Self::TableEntries => 3,
            Self::State => 4,
            Self::Segment => 5,
            Self::Report => 6,
            Self::Full => 7,
            Self::Event => 8,
            Self::Optional(_) => 9,
            Self::Type(_) => 10,
            Self::Reserved => 11,
            Self::Code => 12,
            Self::Immediate => 13,
        }
    }

    /// The refusal by its number and, for 9 and 10, the type beside it; 0 is none.
    #[inline]
    pub(crate) fn check(number: u8, trb_type: u8) -> Result<(), Self> {
        match number {
            0 => Ok(()),
            _ => Err(Self::of(number, trb_type)),
        }
    }

    // Not inlined: a call that is not refused is to find little code on its way.
    #[cold]
    pub(crate) fn of(number: u8, trb_type: u8) -> Self {
        match number {
            1 => Self::Outside,
            2 => Self::TableBase,
            3 => Self::TableEntries,
            4 => Self::State,
            5 => Self::Segment,
            6 => Self::Report,
            7 => Self::Full,
            8 => Self::Event,
            9 => Self::Optional(trb_type),
            10 => Self::Type(trb_type),
            11 => Self::Reserved,
            12 => Self::Code,
            13 => Self::Immediate,
            _ => unreachable!("the contracts know no refusal {number}"),
        }
    }
}

impl fmt::Display for Refusal {
    fn fmt(&self, f: &mut fmt::Formatter<'_>) -> fmt::Result {
        match self {
            Self::Outside => write!(f, "a byte to be touched is outside the lent memory"),
            Self::TableBase => write!(f, "the table's base is not a multiple of 64"),
            Self::TableEntries => write!(f, "the table has no entry, or more than 16"),
            Self::State => write!(
                f,
                "the ring is not configured, or its state breaks its limits"
            ),
            Self::Segment => write!(f, "a segment's base, size or end is not allowed"),
            Self::Report => write!(f, "the reported place is not a multiple of 16"),
            Self::Full => write!(
                f,
                "the ring is full: the slot after the present one is the reported place"
            ),
            Self::Event => write!(f, "a field of the event does not fit or is not aligned"),
            Self::Optional(t) => write!(f, "command type {t} is optional and not supported"),
            Self::Type(t) => write!(f, "type {t} has no row in this parser"),
            Self::Reserved => write!(f, "a bit is set that must be 0"),
            Self::Code => write!(f, "the event cannot hold this completion code"),
            Self::Immediate => write!(f, "the TRB holds its data itself and points at none"),
        }?;
        write!(f, " (refusal {})", self.number())
    }
}

impl Error for Refusal {}

#[cfg(test)]
mod tests {
    use super::Refusal;
    use std::string::ToString;

    #[test]
    fn a_refusal_keeps_its_number_and_type() {
        for number in 1..=13 {
            let refusal = Refusal::check(number, 19).unwrap_err();
            assert_eq!(refusal.number(), number);
            let has_type = matches!(refusal, Refusal::Optional(19) | Refusal::Type(19));
            assert_eq!(has_type, number == 9 || number == 10);
            assert!(refusal
                .to_string()
                .ends_with(&format!("(refusal {number})")));
        }
        assert_eq!(Refusal::check(0, 19), Ok(()));
    }
}
