//! The ring core of an xHCI device emulation, proved, under usbvfiod's names.
//!
//! What is decided here is decided by archives in which each function is proved to meet its contract (crates/lomvigast_ffi, crates/trb_ffi);
//! this crate gives its answers Rust's types. No input is outside a contract: a call answers, or refuses with a [`Refusal`]
//! that has a number and a sentence, and a refusal changes no byte of guest memory and no ring. Neither `std` nor an allocator is
//! needed.
//!
//! What the guest shares is lent for one call as [`GuestMemory`] or [`GuestMemoryMut`], and nobody may write to it during the
//! call: a guest that runs on is lent as a copy (docs/USBVFIOD.md).
//!
//! ```
//! use lomvigast::linked_ring::{Answer, LinkedRing};
//! use lomvigast::{GuestMemory, Refusal};
//!
//! // A Link TRB (type 6) with cycle bit 1 that leads to itself.
//! let mut bytes = [0; 16];
//! bytes[12] = 1;
//! bytes[13] = 6 << 2;
//!
//! let mut ring = LinkedRing::new(0, true);
//! let chase = ring.next_trb(GuestMemory::new(&bytes));
//! assert_eq!(chase.answer, Answer::TooManyLinks); // and never "nothing new"
//! assert_eq!(chase.notes.links, 256);
//!
//! // The same ring in a guest that lends fifteen bytes: refused, and the ring is where it was.
//! let chase = ring.next_trb(GuestMemory::new(&bytes[..15]));
//! assert_eq!(chase.answer, Answer::Refused(Refusal::Outside));
//! ```

#![no_std]
#![deny(missing_docs)]
#![deny(clippy::missing_errors_doc)]
#![deny(unsafe_op_in_unsafe_fn)]
// Everything unsafe stands in `ffi`.
#![deny(unsafe_code)]

// For the unit tests alone: the crate is `core` and the archives.
#[cfg(test)]
#[macro_use]
extern crate std;

pub mod event_ring;
#[allow(unsafe_code)]
mod ffi;
pub mod linked_ring;
mod memory;
mod refusal;
pub mod trb;
mod types;

pub use memory::{GuestMemory, GuestMemoryMut};
pub use refusal::Refusal;

/// The examples of docs/USBVFIOD.md.
#[cfg(doctest)]
#[doc = include_str!("../../../docs/USBVFIOD.md")]
struct Page;
