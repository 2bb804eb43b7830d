use crate::ffi;
use crate::trb::RawTrbBuffer;
use crate::Refusal;
use core::fmt;

/// Guest memory lent to be read: a window, whose first byte has a guest address of its own.
///
/// ```
/// use lomvigast::{GuestMemory, Refusal};
/// let bytes = [1, 2, 3, 4];
///
/// let memory = GuestMemory::new(&bytes); // begins at 0
/// assert_eq!(memory.read2(2), Ok(0x0403));
/// assert_eq!(memory.read2(3), Err(Refusal::Outside));
/// assert_eq!(memory.read2(u64::MAX), Err(Refusal::Outside));
///
/// // A window that begins high: what lies below it is outside too.
/// let memory = GuestMemory::at(0x1_0000_0000, &bytes);
/// assert_eq!(memory.read2(0x1_0000_0002), Ok(0x0403));
/// assert_eq!(memory.read2(0x1_0000_0003), Err(Refusal::Outside));
/// assert_eq!(memory.read2(0xffff_ffff), Err(Refusal::Outside));
/// assert_eq!(memory.read2(2), Err(Refusal::Outside));
///
/// // One that ends at 2^64: its last byte has the last address, and nothing goes on at 0.
/// let memory = GuestMemory::at(u64::MAX - 3, &bytes);
/// assert_eq!(memory.read2(u64::MAX - 1), Ok(0x0403));
/// assert_eq!(memory.read2(u64::MAX), Err(Refusal::Outside));
/// assert_eq!(memory.read2(0), Err(Refusal::Outside));
/// ```
#[derive(Clone, Copy)]
pub struct GuestMemory<'a> {
    pub(crate) start: u64,
    pub(crate) bytes: &'a [u8],
}

impl<'a> GuestMemory<'a> {
    /// Memory of the length of `bytes`, from address 0 on.
    #[inline]
    pub const fn new(bytes: &'a [u8]) -> Self {
        Self::at(0, bytes)
    }

    /// A window of the length of `bytes`, from the address `start` on. Bytes that would stand at 2^64 or beyond have no address.
    #[inline]
    pub const fn at(start: u64, bytes: &'a [u8]) -> Self {
        Self { start, bytes }
    }

    /// The address of the first byte.
    #[inline]
    pub const fn start(self) -> u64 {
        self.start
    }

    /// Whether all of `length` bytes from `address` on are in this memory.
    #[inline]
    pub fn inside(self, address: u64, length: u64) -> bool {
        ffi::inside(self.start, self.bytes, address, length)
    }

    /// The little-endian number of two bytes at `address`.
    ///
    /// # Errors
    ///
    /// Refused with 1 where they are not all inside memory.
    #[inline]
    pub fn read2(self, address: u64) -> Result<u16, Refusal> {
        Ok(number(ffi::read2(self.start, self.bytes, address))? as u16)
    }

    /// The little-endian number of four bytes at `address`.
    ///
    /// # Errors
    ///
    /// Refused with 1 where they are not all inside memory.
    #[inline]
    pub fn read4(self, address: u64) -> Result<u32, Refusal> {
        Ok(number(ffi::read4(self.start, self.bytes, address))? as u32)
    }

    /// The little-endian number of eight bytes at `address`.
    ///
    /// # Errors
    ///
    /// Refused with 1 where they are not all inside memory.
    #[inline]
    pub fn read8(self, address: u64) -> Result<u64, Refusal> {
        number(ffi::read8(self.start, self.bytes, address))
    }

    /// The sixteen bytes of a TRB at `address`.
    ///
    /// # Errors
    ///
    /// Refused with 1 where they are not all inside memory.
    #[inline]
    pub fn read_trb(self, address: u64) -> Result<RawTrbBuffer, Refusal> {
        ffi::read_trb(self.start, self.bytes, address).map_err(|number| Refusal::of(number, 0))
    }
}

fn number(answer: ffi::CNumber) -> Result<u64, Refusal> {
    Refusal::check(answer.refusal, 0)?;
    Ok(answer.value)
}

/// Guest memory lent to be changed: a window as [`GuestMemory`] is.
///
/// ```
/// use lomvigast::{GuestMemoryMut, Refusal};
/// let mut bytes = [0; 16];
/// let mut memory = GuestMemoryMut::at(0x8000, &mut bytes);
/// memory.write_trb(0x8000, &[7; 16])?;
/// assert_eq!(memory.shared().read8(0x8008), Ok(0x0707_0707_0707_0707));
/// assert_eq!(memory.write_trb(0, &[9; 16]), Err(Refusal::Outside));
/// assert_eq!(bytes, [7; 16]);
/// # Ok::<(), Refusal>(())
/// ```
pub struct GuestMemoryMut<'a> {
    pub(crate) start: u64,
    pub(crate) bytes: &'a mut [u8],
}

impl<'a> GuestMemoryMut<'a> {
    /// Memory of the length of `bytes`, from address 0 on.
    #[inline]
    pub fn new(bytes: &'a mut [u8]) -> Self {
        Self::at(0, bytes)
    }

    /// A window of the length of `bytes`, from the address `start` on, as [`GuestMemory::at`] makes it.
    #[inline]
    pub fn at(start: u64, bytes: &'a mut [u8]) -> Self {
        Self { start, bytes }
    }

    /// The address of the first byte.
    #[inline]
    pub const fn start(&self) -> u64 {
        self.start
    }

    /// The same memory, to be read.
    #[inline]
    pub fn shared(&self) -> GuestMemory<'_> {
        GuestMemory::at(self.start, self.bytes)
    }

    /// Writes the sixteen bytes of a TRB to `address`.
    ///
    /// # Errors
    ///
    /// Refused with 1 where they would not all be inside memory; none of them is then written.
    #[inline]
    pub fn write_trb(&mut self, address: u64, trb: &RawTrbBuffer) -> Result<(), Refusal> {
        Refusal::check(ffi::write_trb(self.start, self.bytes, address, trb), 0)
    }
}

/// Where it is and how much, and not all that the guest keeps in it.
fn show(name: &str, memory: GuestMemory<'_>, f: &mut fmt::Formatter<'_>) -> fmt::Result {
    f.debug_struct(name)
        .field("start", &memory.start)
        .field("length", &memory.bytes.len())
        .finish()
}

impl fmt::Debug for GuestMemory<'_> {
    fn fmt(&self, f: &mut fmt::Formatter<'_>) -> fmt::Result {
        show("GuestMemory", *self, f)
    }
}

impl fmt::Debug for GuestMemoryMut<'_> {
    fn fmt(&self, f: &mut fmt::Formatter<'_>) -> fmt::Result {
        show("GuestMemoryMut", self.shared(), f)
    }
}
