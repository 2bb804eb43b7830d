//! The event ring, which the controller fills, and its reader, which stands on the driver's side.

pub use crate::types::RingState;

use crate::types::{EventTrb, RawTrbBuffer, State};
use crate::{ffi, GuestMemory, GuestMemoryMut, Refusal};

/// The producer's end of an event ring (xHCI 4.9.4).
///
/// ```
/// use lomvigast::event_ring::{EventReader, EventRing};
/// use lomvigast::trb::EventTrb;
/// use lomvigast::{GuestMemoryMut, Refusal};
///
/// // A table at 0 with one entry: base 0x40, two slots.
/// let mut bytes = [0; 0x60];
/// bytes[0] = 0x40;
/// bytes[8] = 2;
/// let mut memory = GuestMemoryMut::new(&mut bytes);
///
/// let (mut ring, mut reader) = (EventRing::new(), EventReader::new());
/// ring.configure(memory.shared(), 0, 1)?;
/// reader.configure(memory.shared(), 0, 1)?;
///
/// let event = EventTrb::new_port_status_change_event_trb(3);
/// ring.enqueue(&mut memory, &event, 0x40)?;
/// // One slot is always left free.
/// assert_eq!(ring.enqueue(&mut memory, &event, 0x40), Err(Refusal::Full));
///
/// let taken = reader.take(memory.shared())?.expect("one event");
/// assert_eq!(EventTrb::parse(taken), Ok(event));
/// assert_eq!(reader.take(memory.shared()), Ok(None));
/// # Ok::<(), Refusal>(())
/// ```
// Not `Copy`: a copy that moves on in its place would leave it behind.
#[derive(Debug, Clone, PartialEq, Eq, Hash)]
pub struct EventRing {
    state: State,
}

impl EventRing {
    /// A ring that is not configured.
    #[inline]
    pub fn new() -> Self {
        let state = State::default();
        let mut new = Self { state };
        new.reset();
        new
    }

    /// Returns the ring to what [`EventRing::new`] makes.
    #[inline]
    pub fn reset(&mut self) {
        ffi::reset(&mut self.state);
    }

    /// Puts the ring at the first slot of the first segment.
    ///
    /// # Errors
    ///
    /// Refused with 2 (`base_address` is no multiple of 64), 3 (`erst_size` is 0 or above 16), 1 (the table is not inside
    /// memory) or 5 (its first segment), in this order; the ring is then as it was.
    #[inline]
    pub fn configure(
        &mut self,
        memory: GuestMemory<'_>,
        base_address: u64,
        erst_size: u16,
    ) -> Result<(), Refusal> {
        let number = ffi::configure(
            memory.start,
            memory.bytes,
            &mut self.state,
            base_address,
            erst_size,
        );
        Refusal::check(number, 0)
    }

    /// Writes an event to the present slot and moves on, unless that would fill the last free slot.
    ///
    /// `dequeue_pointer` is the place up to which the driver has reported events as taken, ERDP with its low four bits
    /// cleared.
    ///
    /// # Errors
    ///
    /// Refused with 8 (the event), 4 (this ring), 6 (`dequeue_pointer`), 1 (the slot, or the next table entry where one slot
    /// remains), 5 (that entry) or 7 (full: the event is the caller's to keep), in this order; no byte of memory has then
    /// changed, and the ring is as it was.
    #[inline]
    pub fn enqueue(
        &mut self,
        memory: &mut GuestMemoryMut<'_>,
        trb: &EventTrb,
        dequeue_pointer: u64,
    ) -> Result<(), Refusal> {
        let number = ffi::add(
            memory.start,
            memory.bytes,
            &mut self.state,
            trb,
            dequeue_pointer,
        );
        Refusal::check(number, 0)
    }

    /// What the ring holds.
    #[inline]
    pub fn state(&self) -> RingState {
        (&self.state).into()
    }
}

impl Default for EventRing {
    fn default() -> Self {
        Self::new()
    }
}

impl From<RingState> for EventRing {
    #[inline]
    fn from(state: RingState) -> Self {
        let state = state.into();
        Self { state }
    }
}

/// The consumer's end of an event ring: what a driver does (xHCI 4.9.4). See the example at [`EventRing`].
// Not `Copy`: a copy that moves on in its place would leave it behind.
#[derive(Debug, Clone, PartialEq, Eq, Hash)]
pub struct EventReader {
    state: State,
}

impl EventReader {
    /// A reader that is not configured.
    #[inline]
    pub fn new() -> Self {
        let state = State::default();
        let mut new = Self { state };
        new.reset();
        new
    }

    /// Returns the reader to what [`EventReader::new`] makes.
    #[inline]
    pub fn reset(&mut self) {
        ffi::reset(&mut self.state);
    }

    /// As [`EventRing::configure`].
    ///
    /// # Errors
    ///
    /// As there.
    #[inline]
    pub fn configure(
        &mut self,
        memory: GuestMemory<'_>,
        base_address: u64,
        erst_size: u16,
    ) -> Result<(), Refusal> {
        let number = ffi::configure_reader(
            memory.start,
            memory.bytes,
            &mut self.state,
            base_address,
            erst_size,
        );
        Refusal::check(number, 0)
    }

    /// The next event's bytes, or `None` if the slot is stale: on a ring that began with zeroed segments and that nobody else
    /// writes to, every event was then taken.
    ///
    /// # Errors
    ///
    /// Refused with 4 (this reader), 1 (the slot, or the next table entry after a segment's last event) or 5 (that entry), in
    /// this order; the reader is then as it was.
    #[inline]
    pub fn take(&mut self, memory: GuestMemory<'_>) -> Result<Option<RawTrbBuffer>, Refusal> {
        match ffi::take(memory.start, memory.bytes, &mut self.state) {
            Ok(event) => Ok(Some(event)),
            Err(ffi::NOTHING) => Ok(None),
            Err(number) => Err(Refusal::of(number, 0)),
        }
    }

    /// What the reader holds. Its `place` is what a driver reports.
    #[inline]
    pub fn state(&self) -> RingState {
        (&self.state).into()
    }
}

impl Default for EventReader {
    fn default() -> Self {
        Self::new()
    }
}

impl From<RingState> for EventReader {
    #[inline]
    fn from(state: RingState) -> Self {
        let state = state.into();
        Self { state }
    }
}
