//! Stands in for usbvfiod's bus: guest memory, whose address 0 is byte 0. An access outside it is counted, reads 0 and writes nothing.

use std::cell::{Cell, UnsafeCell};
use std::rc::Rc;

#[cfg(not(feature = "dyn_bus"))]
pub type BusDeviceRef = Rc<Memory>;

/// As in usbvfiod, but for `Arc`: the call goes through a table.
#[cfg(feature = "dyn_bus")]
pub type BusDeviceRef = Rc<dyn BusDevice>;

#[derive(Debug, Clone, Copy)]
pub enum RequestSize {
    Size1,
    Size2,
    Size4,
    Size8,
}

#[derive(Debug, Clone, Copy)]
pub struct Request {
    pub addr: u64,
    pub size: RequestSize,
}

impl Request {
    pub const fn new(addr: u64, size: RequestSize) -> Self {
        Self { addr, size }
    }

    const fn length(&self) -> usize {
        match self.size {
            RequestSize::Size1 => 1,
            RequestSize::Size2 => 2,
            RequestSize::Size4 => 4,
            RequestSize::Size8 => 8,
        }
    }
}

#[derive(Debug)]
pub struct Memory {
    // Not a `RefCell`: its counting would be charged to the original where speed is compared.
    bytes: UnsafeCell<Vec<u8>>,
    outside: Cell<u64>,
    bulk_reads: Cell<u64>,
}

impl Memory {
    pub fn new(bytes: Vec<u8>) -> Rc<Self> {
        Rc::new(Self {
            bytes: UnsafeCell::new(bytes),
            outside: Cell::new(0),
            bulk_reads: Cell::new(0),
        })
    }

    /// The memory as it is now.
    pub fn bytes(&self) -> Vec<u8> {
        self.with_all(|bytes| bytes.clone())
    }

    /// Whether the memory is these bytes.
    pub fn holds(&self, expected: &[u8]) -> bool {
        self.with_all(|bytes| bytes == expected)
    }

    /// Puts other bytes in place of all there are, without a new allocation where there is room.
    pub fn fill(&self, with: &[u8]) {
        self.with_all(|bytes| with.clone_into(bytes));
    }

    /// How many accesses fell outside since the last call.
    pub fn outside(&self) -> u64 {
        self.outside.take()
    }

    /// How many bulk reads there were since the last call.
    pub fn bulk_reads(&self) -> u64 {
        self.bulk_reads.take()
    }

    #[inline]
    pub fn read(&self, request: Request) -> u64 {
        let mut value = [0; 8];
        self.with_part(request.addr, request.length(), |part| {
            value[..part.len()].copy_from_slice(part)
        });
        u64::from_le_bytes(value)
    }

    #[inline]
    pub fn write(&self, request: Request, value: u64) {
        self.write_bulk(request.addr, &value.to_le_bytes()[..request.length()]);
    }

    #[inline]
    pub fn read_bulk(&self, addr: u64, data: &mut [u8]) {
        self.bulk_reads.set(self.bulk_reads.get() + 1);
        self.with_part(addr, data.len(), |part| data.copy_from_slice(part));
    }

    #[inline]
    pub fn write_bulk(&self, addr: u64, data: &[u8]) {
        self.with_part(addr, data.len(), |part| part.copy_from_slice(data));
    }

    #[inline]
    fn with_part(&self, addr: u64, length: usize, action: impl FnOnce(&mut [u8])) {
        self.with_all(|bytes| {
            let start = usize::try_from(addr).ok();
            let part = start.and_then(|start| bytes.get_mut(start..start.checked_add(length)?));
            match part {
                Some(part) => action(part),
                None => self.outside.set(self.outside.get() + 1),
            }
        });
    }

    #[inline]
    fn with_all<T>(&self, action: impl FnOnce(&mut Vec<u8>) -> T) -> T {
        // SAFETY: one thread, as the type is not `Sync`; nothing else refers to the bytes, as no reference to them leaves
        // this file; and the actions above only copy and compare, so that none comes here again.
        action(unsafe { &mut *self.bytes.get() })
    }
}

#[cfg(feature = "dyn_bus")]
pub trait BusDevice: std::fmt::Debug {
    fn read(&self, request: Request) -> u64;
    fn write(&self, request: Request, value: u64);
    fn read_bulk(&self, addr: u64, data: &mut [u8]);
    fn write_bulk(&self, addr: u64, data: &[u8]);
}

#[cfg(feature = "dyn_bus")]
impl BusDevice for Memory {
    fn read(&self, request: Request) -> u64 {
        Memory::read(self, request)
    }

    fn write(&self, request: Request, value: u64) {
        Memory::write(self, request, value);
    }

    fn read_bulk(&self, addr: u64, data: &mut [u8]) {
        Memory::read_bulk(self, addr, data);
    }

    fn write_bulk(&self, addr: u64, data: &[u8]) {
        Memory::write_bulk(self, addr, data);
    }
}
