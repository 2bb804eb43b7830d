/// A field's value as the word that it crosses in.
trait Word {
    fn word(self) -> u64;
    fn of(word: u64) -> Self;
}

macro_rules! numbers {
    ($($kind:ty)*) => {
        $(impl Word for $kind {
            #[inline]
            fn word(self) -> u64 {
                self.into()
            }
            #[inline]
            fn of(word: u64) -> Self {
                word as Self
            }
        })*
    };
}

numbers!(u64 u32 u16);

impl Word for bool {
    #[inline]
    fn word(self) -> u64 {
        self.into()
    }
    #[inline]
    fn of(word: u64) -> Self {
        word != 0
    }
}

/// Declares the state of a ring once: as one looks at it, and as it crosses, a word for each field in the order given.
macro_rules! state {
    ($($(#[$note:meta])* $field:ident: $kind:ty,)*) => {
        /// All that an event ring or its reader holds, as one saves it or looks at it. Any values are allowed; those that
        /// break a ring's limits are refused with 4 when it is used.
        ///
        /// More fields will come, so one is made of the default, all 0, which is a ring that was never configured:
        ///
        /// ```
        /// use lomvigast::event_ring::{EventRing, RingState};
        ///
        /// let mut state = RingState::default();
        /// assert_eq!(state, EventRing::new().state());
        /// state.ready = true;
        /// state.entries = 1;
        /// state.place = 0x100;
        /// state.remaining = 2;
        /// state.cycle = true;
        /// assert_eq!(EventRing::from(state).state(), state);
        /// ```
        #[derive(Debug, Clone, Copy, Default, PartialEq, Eq, Hash)]
        #[non_exhaustive]
        pub struct RingState {
            $($(#[$note])* pub $field: $kind,)*
        }

        /// The same as the archive changes it in place. Each word is one that its field can hold.
        #[repr(C)]
        #[derive(Debug, Clone, Default, PartialEq, Eq, Hash)]
        pub struct State {
            $(pub $field: u64,)*
        }

        impl From<&State> for RingState {
            #[inline]
            fn from(state: &State) -> Self {
                Self { $($field: Word::of(state.$field),)* }
            }
        }

        impl From<RingState> for State {
            #[inline]
            fn from(state: RingState) -> Self {
                Self { $($field: state.$field.word(),)* }
            }
        }

        #[cfg(test)]
        impl State {
            /// Each word's name and place.
            pub const WORDS: &[(&str, usize)] = &[$((stringify!($field), core::mem::offset_of!(State, $field)),)*];
        }
    };
}

state! {
    /// The segment table's base.
    table: u64,
    /// The present slot (usbvfiod's `enqueue_pointer`).
    place: u64,
    /// How many slots the present segment still has, the present one among them (usbvfiod's `trb_count`).
    remaining: u32,
    /// The entry of the present segment (usbvfiod's `erst_count`).
    index: u16,
    /// How many entries the table has.
    entries: u16,
    /// Whether it was configured, and not reset since.
    ready: bool,
    /// The cycle bit of this pass (usbvfiod's `cycle_state`).
    cycle: bool,
}
