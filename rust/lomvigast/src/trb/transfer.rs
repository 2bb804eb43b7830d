use super::RawTrbBuffer;
use crate::types::{DataStageTrb, NormalTrb, TransferTrbVariant};
use crate::{ffi, GuestMemory, GuestMemoryMut, Refusal};
use core::ops::Range;

impl TransferTrbVariant {
    /// The TRB that sixteen bytes say; never fails, see [`TransferTrbVariant::Unrecognized`].
    ///
    /// ```
    /// use lomvigast::trb::{TransferTrbVariant, TrbDmaInfo};
    /// use lomvigast::GuestMemory;
    ///
    /// let mut trb = [0; 16];
    /// trb[0] = 2; // pointer
    /// trb[8] = 3; // length
    /// trb[13] = 1 << 2; // Normal
    /// let TransferTrbVariant::Normal(normal) = TransferTrbVariant::parse(trb) else {
    ///     panic!("type 1")
    /// };
    /// let bytes = [10, 11, 12, 13, 14, 15];
    /// assert_eq!(normal.data(GuestMemory::new(&bytes)), Ok(&bytes[2..5]));
    /// // In a window that begins at 1, address 2 is the second byte.
    /// assert_eq!(normal.data(GuestMemory::at(1, &bytes)), Ok(&bytes[1..4]));
    /// ```
    #[inline]
    pub fn parse(bytes: RawTrbBuffer) -> Self {
        ffi::parse_transfer(&bytes)
    }
}

/// Where a Normal or Data Stage TRB's data is.
pub trait TrbDmaInfo {
    /// Where the data is, or the data itself.
    fn data_pointer(&self) -> u64;
    /// How many bytes.
    fn transfer_length(&self) -> u32;
    /// Whether the pointer's bytes are the data.
    fn has_immediate_data(&self) -> bool;
    /// Whether a short packet makes an event.
    fn has_interrupt_on_short(&self) -> bool;
    /// Whether its end makes an event.
    fn has_interrupt_on_completion(&self) -> bool;

    /// The very part of guest memory that the TRB points at, uncopied.
    ///
    /// Of length 0 it is given anywhere in memory and at its end, but for an end at 2^64, which has no address.
    ///
    /// # Errors
    ///
    /// Refused with 13 (immediate) or 1 (not inside memory), in this order.
    #[inline]
    fn data<'a>(&self, memory: GuestMemory<'a>) -> Result<&'a [u8], Refusal> {
        Ok(&memory.bytes[part(memory, self)?])
    }

    /// The same part, to be changed: where a device puts what it sends.
    ///
    /// # Errors
    ///
    /// As for [`TrbDmaInfo::data`].
    #[inline]
    fn data_mut<'a>(&self, memory: &'a mut GuestMemoryMut<'_>) -> Result<&'a mut [u8], Refusal> {
        let part = part(memory.shared(), self)?;
        Ok(&mut memory.bytes[part])
    }
}

#[inline]
fn part(
    memory: GuestMemory<'_>,
    trb: &(impl TrbDmaInfo + ?Sized),
) -> Result<Range<usize>, Refusal> {
    let part = ffi::data(
        memory.start,
        memory.bytes,
        trb.data_pointer(),
        trb.transfer_length(),
        trb.has_immediate_data(),
    );
    Refusal::check(part.refusal, 0)?;
    // Inside memory, so both fit.
    let offset = part.offset as usize;
    Ok(offset..offset + part.length as usize)
}

macro_rules! dma_info {
    ($($trb:ty),*) => {
        $(impl TrbDmaInfo for $trb {
            #[inline]
            fn data_pointer(&self) -> u64 {
                self.data_pointer
            }
            #[inline]
            fn transfer_length(&self) -> u32 {
                self.transfer_length
            }
            #[inline]
            fn has_immediate_data(&self) -> bool {
                self.immediate_data
            }
            #[inline]
            fn has_interrupt_on_short(&self) -> bool {
                self.interrupt_on_short
            }
            #[inline]
            fn has_interrupt_on_completion(&self) -> bool {
                self.interrupt_on_completion
            }
        })*
    };
}

dma_info!(NormalTrb, DataStageTrb);
