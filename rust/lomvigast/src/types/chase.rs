use super::RawTrb;
use crate::Refusal;

/// What a chase came to. "Gave up looking" is not "nothing there", and neither is a refusal: match all four.
#[repr(u8)]
#[derive(Debug, Clone, Copy, PartialEq, Eq, Hash)]
#[must_use]
pub enum Answer {
    /// The TRB at the ring's place, after any Links that were followed, is stale.
    NothingNew = 0,
    /// A fresh TRB that is no Link. The ring's place is on it; [`LinkedRing::advance`] goes past it.
    ///
    /// [`LinkedRing::advance`]: crate::linked_ring::LinkedRing::advance
    Trb(RawTrb) = 1,
    /// 256 links were followed and one more fresh Link stands at the ring's place.
    TooManyLinks = 2,
    /// Refused, with 1: the sixteen bytes of a TRB are not all in memory. The ring is where it was before the call.
    Refused(Refusal) = 3,
}

/// What was met on the way, where usbvfiod writes warnings. Beside a refusal there are none.
#[repr(C)]
#[derive(Debug, Clone, Copy, PartialEq, Eq, Hash)]
pub struct Notes {
    /// How many links were followed, 0 to 256.
    pub links: u16,
    /// Whether any of them had pointer bits 0 to 3 set, which were cleared.
    pub cleared: bool,
    /// Whether any of them had the interrupt-on-completion bit.
    pub completion: bool,
}

/// An answer, and the notes beside it.
#[repr(C)]
#[derive(Debug, Clone, Copy, PartialEq, Eq, Hash)]
#[must_use]
pub struct Chase {
    /// What the chase came to.
    pub answer: Answer,
    /// What was met on the way.
    pub notes: Notes,
}

/// All that a linked ring holds. The cycle state is 0 or 1.
#[repr(C)]
#[derive(Debug, Clone, PartialEq, Eq, Hash)]
pub struct LinkedState {
    pub place: u64,
    pub cycle: u64,
}
