//! The guest memory that the lab lends: bytes, and the address of the first.

use crate::lines::Fault;
use crate::words::count;
use lomvigast::{GuestMemory, GuestMemoryMut, Refusal};
use std::hint::black_box;
use std::ops::Range;

#[derive(Default)]
pub struct Window {
    start: u64,
    bytes: Vec<u8>,
}

impl Window {
    pub fn new(start: u64, bytes: Vec<u8>) -> Result<Self, Fault> {
        has_addresses(start, bytes.len())?;
        Ok(Self { start, bytes })
    }

    /// A window of zeros, if the machine has so much.
    pub fn zeroed(start: u64, length: usize) -> Result<Self, Fault> {
        Self::new(start, zeros(length)?)
    }

    pub fn lent(&self) -> GuestMemory<'_> {
        GuestMemory::at(self.start, &self.bytes)
    }

    pub fn lent_mut(&mut self) -> GuestMemoryMut<'_> {
        GuestMemoryMut::at(self.start, &mut self.bytes)
    }

    /// These bytes, or refusal 1.
    pub fn part(&self, address: u64, length: u64) -> Result<&[u8], Refusal> {
        Ok(&self.bytes[self.range(address, length)?])
    }

    pub fn part_mut(&mut self, address: u64, length: u64) -> Result<&mut [u8], Refusal> {
        let range = self.range(address, length)?;
        Ok(&mut self.bytes[range])
    }

    fn range(&self, address: u64, length: u64) -> Result<Range<usize>, Refusal> {
        if !self.lent().inside(address, length) {
            return Err(Refusal::Outside);
        }
        // Inside, so both fit.
        let offset = (address - self.start) as usize;
        Ok(offset..offset + length as usize)
    }

    /// The first address, of so many from this one on, that is not in the window. From 2^64 on there are none.
    pub fn lacks(&self, address: u64, length: u64) -> Option<u64> {
        let held = self.bytes.len() as u64;
        match address.checked_sub(self.start) {
            Some(offset) if offset < held && length <= held - offset => None,
            Some(offset) if offset < held => self.start.checked_add(held),
            _ => Some(address),
        }
    }
}

impl From<Vec<u8>> for Window {
    /// From address 0 on.
    fn from(bytes: Vec<u8>) -> Self {
        Self { start: 0, bytes }
    }
}

/// A fault where so many bytes from an address on would pass 2^64: the core would lend them, but nobody could name them.
pub fn has_addresses(start: u64, length: usize) -> Result<(), Fault> {
    let last = (length as u64).saturating_sub(1);
    match start.checked_add(last) {
        Some(_) => Ok(()),
        None => Err(format!(
            "{} from {start:#x} on would pass 2^64",
            count(length, "byte")
        )),
    }
}

fn zeros(length: usize) -> Result<Vec<u8>, Fault> {
    // `vec!`, which is quick, ends the program where there is too little. So this is tried first; the compiler would leave
    // out a reservation that nobody sees.
    let mut tried = Vec::<u8>::new();
    let enough = tried.try_reserve_exact(length).is_ok();
    drop(black_box(tried));
    match enough {
        true => Ok(vec![0; length]),
        false => Err(format!("this machine has no {length} bytes left")),
    }
}

#[cfg(test)]
mod tests {
    use super::*;

    fn window(start: u64) -> Window {
        Window::new(start, vec![1, 2, 3, 4]).expect("it has addresses")
    }

    #[test]
    fn a_part_is_told_by_its_address() {
        for start in [0, 1, 1 << 40, u64::MAX - 3] {
            let mut window = window(start);
            assert_eq!(window.part(start + 1, 2), Ok(&[2, 3][..]));
            assert_eq!(window.part(start + 1, 4), Err(Refusal::Outside));
            assert_eq!(window.part(start.wrapping_sub(1), 1), Err(Refusal::Outside));
            window.part_mut(start + 3, 1).expect("inside")[0] = 9;
            assert_eq!(window.lent().read2(start + 2), Ok(0x0903));
        }
    }

    #[test]
    fn what_it_lacks() {
        let low = window(0x10);
        assert_eq!(low.lacks(0x10, 4), None);
        assert_eq!(low.lacks(0x12, 3), Some(0x14));
        assert_eq!(low.lacks(0x14, 1), Some(0x14));
        assert_eq!(low.lacks(0x0f, 1), Some(0x0f));
        // No byte of these is missing: those past 2^64 are nowhere.
        let high = window(u64::MAX - 3);
        assert_eq!(high.lacks(u64::MAX, 2), None);
        assert_eq!(high.lacks(0, 1), Some(0));
    }

    #[test]
    fn bytes_without_an_address() {
        assert!(has_addresses(u64::MAX, 1).is_ok() && has_addresses(u64::MAX, 0).is_ok());
        let fault = has_addresses(u64::MAX, 2).unwrap_err();
        assert_eq!(fault, "2 bytes from 0xffffffffffffffff on would pass 2^64");
    }
}
