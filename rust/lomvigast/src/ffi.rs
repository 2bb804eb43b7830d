//! The archives' exports (include/lomvigast.h lists them). All that is unsafe stands here.
//!
//! What crosses are numbers, small records in registers, and memory that is lent for the call and laid out as crate::types has
//! it. That the layouts are those of the Rattle side is tested in `layout`, that the lists of exports are in `exports`.

use crate::types::{
    Chase, Class, CommandTrbVariant, CompletionCode, EventTrb, LinkedState,
    PortStatusChangeEventTrbData, RawTrbBuffer, State, TransferTrbVariant, Unrecognized,
};
use crate::Refusal;
use core::mem::MaybeUninit;

#[cfg(test)]
mod exports;
#[cfg(test)]
mod layout;
#[cfg(test)]
mod memcheck;

/// A TRB's two halves as little-endian numbers; or, where an event is refused, 0 and the refusal's number.
#[repr(C)]
#[derive(Debug, Clone, Copy, PartialEq, Eq)]
pub struct CTrb {
    pub low: u64,
    pub high: u64,
}

impl From<&RawTrbBuffer> for CTrb {
    #[inline]
    fn from(bytes: &RawTrbBuffer) -> Self {
        let both = u128::from_le_bytes(*bytes);
        Self {
            low: both as u64,
            high: (both >> 64) as u64,
        }
    }
}

impl From<CTrb> for RawTrbBuffer {
    #[inline]
    fn from(trb: CTrb) -> Self {
        (u128::from(trb.low) | u128::from(trb.high) << 64).to_le_bytes()
    }
}

/// A Link; or, with `link` false and 0s, any other TRB.
#[repr(C)]
#[derive(Debug, Clone, Copy, PartialEq, Eq)]
pub struct CLink {
    pub pointer: u64,
    pub link: bool,
    pub cleared: bool,
    pub toggle: bool,
    pub completion: bool,
}

/// How far from the window's first byte the part begins, and its length; or the refusal's number, with 0s.
#[repr(C)]
#[derive(Debug, Clone, Copy, PartialEq, Eq)]
pub struct CPart {
    pub offset: u64,
    pub length: u32,
    pub refusal: u8,
}

/// A code, with refusal 0; or a refusal, with the code that is number 0.
#[repr(C)]
#[derive(Debug, Clone, Copy, PartialEq, Eq)]
pub struct CCoded {
    pub refusal: u8,
    pub code: CompletionCode,
}

/// A value, with refusal 0; or a refusal, with 0.
#[repr(C)]
#[derive(Debug, Clone, Copy, PartialEq, Eq)]
pub struct CNumber {
    pub value: u64,
    pub refusal: u8,
}

/// A high half below this is a refusal's number. No event has one: its type stands above.
pub const REFUSED_BELOW: u64 = 256;

/// What `take` answers where there is no event. No refusal has this number.
pub const NOTHING: u8 = 255;

mod raw {
    use super::*;

    // SAFETY: the archives have these functions with these parameters (tests in `exports`), and none of them has a condition on
    // its arguments beyond what Rust's types say. What they answer, and what they leave in an event or a state that they are
    // lent, is a value of its type: their contracts say which. An event and an answer are lent as what they are, so that no
    // reference is made to words of which some bytes are padding. Functions that take a slice's parts are `unsafe`, the rest
    // `safe`.
    unsafe extern "C" {
        pub safe fn lomvigast_advance(ring: &mut LinkedState);
        pub safe fn lomvigast_set_place(ring: &mut LinkedState, place: u64, cycle: bool);
        pub safe fn lomvigast_reset(ring: &mut State);
        pub safe fn lomvigast_event_bytes(event: &EventTrb, cycle: u64) -> CTrb;
        pub safe fn lomvigast_parse_event(out: &mut EventTrb, low: u64, high: u64) -> u16;
        pub safe fn lomvigast_parse_command(
            out: &mut MaybeUninit<CommandTrbVariant>,
            low: u64,
            high: u64,
        );
        pub safe fn lomvigast_parse_transfer(
            out: &mut MaybeUninit<TransferTrbVariant>,
            low: u64,
            high: u64,
        );
        pub safe fn lomvigast_parse_link(low: u64, high: u64) -> CLink;
        pub safe fn lomvigast_trb_type(low: u64, high: u64) -> u8;
        pub safe fn lomvigast_cycle_bit(low: u64, high: u64) -> bool;
        pub safe fn lomvigast_code_of(byte: u8) -> CCoded;
        pub safe fn lomvigast_class_of(byte: u8) -> Class;

        pub fn lomvigast_next_trb(
            start: u64,
            mem: *const u8,
            len: usize,
            ring: &mut LinkedState,
        ) -> Chase;
        pub fn lomvigast_configure(
            start: u64,
            mem: *const u8,
            len: usize,
            ring: &mut State,
            table: u64,
            entries: u16,
        ) -> u8;
        pub fn lomvigast_configure_reader(
            start: u64,
            mem: *const u8,
            len: usize,
            reader: &mut State,
            table: u64,
            entries: u16,
        ) -> u8;
        pub fn lomvigast_add(
            start: u64,
            mem: *mut u8,
            len: usize,
            ring: &mut State,
            event: &EventTrb,
            report: u64,
        ) -> u8;
        pub fn lomvigast_take(
            start: u64,
            mem: *const u8,
            len: usize,
            reader: &mut State,
            out: &mut MaybeUninit<CTrb>,
        ) -> u8;
        pub fn lomvigast_data(
            start: u64,
            mem: *const u8,
            len: usize,
            pointer: u64,
            length: u32,
            immediate: bool,
        ) -> CPart;
        pub fn lomvigast_inside(
            start: u64,
            mem: *const u8,
            len: usize,
            address: u64,
            length: u64,
        ) -> bool;
        pub fn lomvigast_read2(start: u64, mem: *const u8, len: usize, address: u64) -> CNumber;
        pub fn lomvigast_read4(start: u64, mem: *const u8, len: usize, address: u64) -> CNumber;
        pub fn lomvigast_read8(start: u64, mem: *const u8, len: usize, address: u64) -> CNumber;
        pub fn lomvigast_read_trb(
            start: u64,
            mem: *const u8,
            len: usize,
            address: u64,
            out: &mut MaybeUninit<CTrb>,
        ) -> u8;
        pub fn lomvigast_write_trb(
            start: u64,
            mem: *mut u8,
            len: usize,
            address: u64,
            low: u64,
            high: u64,
        ) -> u8;
    }
}

pub use raw::{
    lomvigast_advance as advance, lomvigast_class_of as class_of, lomvigast_code_of as code_of,
    lomvigast_event_bytes as event_bytes, lomvigast_reset as reset,
    lomvigast_set_place as set_place,
};

#[inline]
pub fn trb_type(trb: &RawTrbBuffer) -> u8 {
    let CTrb { low, high } = trb.into();
    raw::lomvigast_trb_type(low, high)
}

#[inline]
pub fn cycle_bit(trb: &RawTrbBuffer) -> bool {
    let CTrb { low, high } = trb.into();
    raw::lomvigast_cycle_bit(low, high)
}

#[inline]
pub fn parse_link(trb: &RawTrbBuffer) -> CLink {
    let CTrb { low, high } = trb.into();
    raw::lomvigast_parse_link(low, high)
}

#[inline]
pub fn parse_command(trb: &RawTrbBuffer) -> CommandTrbVariant {
    let CTrb { low, high } = trb.into();
    let mut out = MaybeUninit::uninit();
    raw::lomvigast_parse_command(&mut out, low, high);
    // SAFETY: the export has written a tag and every field of its variant: `put` of crates/trb_ffi/specs/Commands.antt.
    unsafe { out.assume_init() }
}

#[inline]
pub fn parse_transfer(trb: &RawTrbBuffer) -> TransferTrbVariant {
    let CTrb { low, high } = trb.into();
    let mut out = MaybeUninit::uninit();
    raw::lomvigast_parse_transfer(&mut out, low, high);
    // SAFETY: the export has written a tag and every field of its variant: `put` of crates/trb_ffi/specs/Transfers.antt.
    unsafe { out.assume_init() }
}

#[inline]
pub fn parse_event(trb: &RawTrbBuffer) -> Result<EventTrb, Unrecognized> {
    let CTrb { low, high } = trb.into();
    // An event that is lent in the answer itself, so that none is copied there.
    let mut answer = Ok(EventTrb::PortStatusChange(PortStatusChangeEventTrbData {
        port_id: 0,
    }));
    if let Ok(event) = &mut answer {
        let refused = raw::lomvigast_parse_event(event, low, high);
        if refused != 0 {
            refuse(&mut answer, CTrb { low, high }, refused);
        }
    }
    answer
}

/// Tells a refusal's number, and the type above it. Off the way, as most bytes are not refused.
#[cold]
#[inline(never)]
fn refuse(answer: &mut Result<EventTrb, Unrecognized>, trb: CTrb, refused: u16) {
    let [number, trb_type] = refused.to_le_bytes();
    *answer = Err(Unrecognized {
        buffer: trb.into(),
        refusal: Refusal::of(number, trb_type),
    });
}

/// A function that reads lent memory, whose first byte has the address `start`.
macro_rules! reads {
    ($($name:ident = $export:ident($($argument:ident: $kind:ty),*) -> $answer:ty;)*) => {
        $(#[inline]
        pub fn $name(start: u64, mem: &[u8], $($argument: $kind),*) -> $answer {
            // SAFETY: pointer and length are those of one slice, which lives through the call; the export reads no other
            // byte of memory, writes to what it is lent to be changed alone, and keeps no reference.
            unsafe { raw::$export(start, mem.as_ptr(), mem.len(), $($argument),*) }
        })*
    };
}

reads! {
    next_trb = lomvigast_next_trb(ring: &mut LinkedState) -> Chase;
    configure = lomvigast_configure(ring: &mut State, table: u64, entries: u16) -> u8;
    configure_reader = lomvigast_configure_reader(reader: &mut State, table: u64, entries: u16) -> u8;
    data = lomvigast_data(pointer: u64, length: u32, immediate: bool) -> CPart;
    inside = lomvigast_inside(address: u64, length: u64) -> bool;
    read2 = lomvigast_read2(address: u64) -> CNumber;
    read4 = lomvigast_read4(address: u64) -> CNumber;
    read8 = lomvigast_read8(address: u64) -> CNumber;
}

/// The TRB's bytes, or a refusal's number.
#[inline]
pub fn read_trb(start: u64, mem: &[u8], address: u64) -> Result<RawTrbBuffer, u8> {
    let mut out = MaybeUninit::uninit();
    // SAFETY: as for `reads!`; where it answers 0 the export has written both halves.
    unsafe {
        match raw::lomvigast_read_trb(start, mem.as_ptr(), mem.len(), address, &mut out) {
            0 => Ok(out.assume_init().into()),
            refusal => Err(refusal),
        }
    }
}

/// The event's bytes, or [`NOTHING`], or a refusal's number.
#[inline]
pub fn take(start: u64, mem: &[u8], reader: &mut State) -> Result<RawTrbBuffer, u8> {
    let mut out = MaybeUninit::uninit();
    // SAFETY: as for `read_trb`.
    unsafe {
        match raw::lomvigast_take(start, mem.as_ptr(), mem.len(), reader, &mut out) {
            0 => Ok(out.assume_init().into()),
            other => Err(other),
        }
    }
}

#[inline]
pub fn add(start: u64, mem: &mut [u8], ring: &mut State, event: &EventTrb, report: u64) -> u8 {
    // SAFETY: pointer and length are those of one slice that nobody else can reach during the call; the export touches no
    // other byte of memory, writes to it and to the ring alone, and keeps no reference.
    unsafe { raw::lomvigast_add(start, mem.as_mut_ptr(), mem.len(), ring, event, report) }
}

#[inline]
pub fn write_trb(start: u64, mem: &mut [u8], address: u64, trb: &RawTrbBuffer) -> u8 {
    let CTrb { low, high } = trb.into();
    // SAFETY: as for `add`.
    unsafe { raw::lomvigast_write_trb(start, mem.as_mut_ptr(), mem.len(), address, low, high) }
}
