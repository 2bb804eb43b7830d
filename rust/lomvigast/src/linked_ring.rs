//! The link-following reader of command and transfer rings.

pub use crate::types::{Answer, Chase, Notes};

use crate::types::LinkedState;
use crate::{ffi, GuestMemory};

/// Where the next TRB is looked for, and the cycle bit that a fresh one has. All else is in guest memory.
///
/// ```
/// use lomvigast::linked_ring::{Answer, LinkedRing};
/// use lomvigast::GuestMemory;
///
/// // A No Op command (type 23), and behind it a slot that is still stale.
/// let mut bytes = [0; 32];
/// bytes[12] = 1;
/// bytes[13] = 23 << 2;
/// let memory = GuestMemory::new(&bytes);
///
/// let mut ring = LinkedRing::new(0, true);
/// let mut commands = 0;
/// loop {
///     match ring.next_trb(memory).answer {
///         Answer::Trb(_) => commands += 1,
///         Answer::NothingNew => break,
///         // Stop the ring, and say so: whether work waits is not known, and asking again follows 256 links more.
///         Answer::TooManyLinks => panic!("gave up"),
///         // Stop the ring, and say so: it leads out of memory.
///         Answer::Refused(refusal) => panic!("{refusal}"),
///     }
///     ring.advance();
/// }
/// assert_eq!(commands, 1);
/// assert_eq!(ring.get_dequeue_pointer(), (16, true));
/// ```
// Not `Copy`: a copy that moves on in a ring's place would leave the ring behind.
#[derive(Debug, Clone, PartialEq, Eq, Hash)]
pub struct LinkedRing {
    state: LinkedState,
}

impl LinkedRing {
    /// A ring at any place, aligned or not.
    #[inline]
    pub fn new(dequeue_pointer: u64, cycle_state: bool) -> Self {
        let state = LinkedState { place: 0, cycle: 0 };
        let mut ring = Self { state };
        ring.set_dequeue_pointer(dequeue_pointer, cycle_state);
        ring
    }

    /// Looks for a fresh TRB and follows up to 256 Links on the way, as xHCI 4.9.2 and 4.11.5.1 have it.
    ///
    /// [`Answer::Refused`], with 1, where the sixteen bytes of a TRB are not all in memory; place and cycle state are then those
    /// of the entry.
    #[inline]
    pub fn next_trb(&mut self, memory: GuestMemory<'_>) -> Chase {
        ffi::next_trb(memory.start, memory.bytes, &mut self.state)
    }

    /// Goes on by one TRB, modulo 2^64.
    #[inline]
    pub fn advance(&mut self) {
        ffi::advance(&mut self.state);
    }

    /// Puts the ring at a place.
    #[inline]
    pub fn set_dequeue_pointer(&mut self, dequeue_pointer: u64, cycle_state: bool) {
        ffi::set_place(&mut self.state, dequeue_pointer, cycle_state);
    }

    /// The place and the cycle state.
    #[inline]
    pub const fn get_dequeue_pointer(&self) -> (u64, bool) {
        (self.state.place, self.state.cycle == 1)
    }
}
