//! usbvfiod's trb.rs, linked_ring.rs and event_ring.rs, unchanged, over stand-ins for the modules that they use.
//!
//! Their text is no part of this repository (see build.rs). Where it is not at hand this crate is all but empty.

pub use tracing::warnings;

/// Whether the original was at hand when this was built.
pub const AT_HAND: bool = cfg!(at_hand);

#[cfg(at_hand)]
pub mod device {
    pub mod bus;
    pub mod pci;

    #[allow(warnings)]
    pub mod xhci {
        include!(concat!(env!("OUT_DIR"), "/modules.rs"));

        // Included, so that what stands behind the text sees its private fields.
        pub mod event_ring {
            include!(env!("ORIGINAL_EVENT_RING"));

            /// What an `EventRing` holds beside its bus, in document 01's words.
            #[derive(Debug, Clone, Copy, PartialEq, Eq)]
            pub struct State {
                pub place: u64,
                pub remaining: u32,
                pub index: u16,
                pub cycle: bool,
            }

            impl EventRing {
                pub fn state(&self) -> State {
                    State {
                        place: self.enqueue_pointer,
                        remaining: self.trb_count,
                        index: self.erst_count,
                        cycle: self.cycle_state,
                    }
                }

                /// Puts back a state that it held.
                pub fn restore(&mut self, state: State) {
                    self.enqueue_pointer = state.place;
                    self.trb_count = state.remaining;
                    self.erst_count = state.index;
                    self.cycle_state = state.cycle;
                }
            }
        }
    }
}
