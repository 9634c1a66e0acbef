//! The library's functions on vectors of any length. All `unsafe` is here, and is sound for one reason: a
//! vector's pointer is never null and always aligned, and no two of the buffers overlap, since each is
//! borrowed for itself.
use crate::{ffi, Call, Instant, ARRAY_BYTES, CELLS, EVENT_WORDS};

/// The memory that is lent to the library, of any length and contents. Each method hands on its arguments
/// and returns the library's number: 0 for an answer, else why nothing changed.
#[derive(Clone, Debug, PartialEq, Eq)]
pub struct Lent {
    /// The state.
    pub record: Vec<u8>,
    /// The stored array.
    pub array: Vec<u8>,
    /// The charge store.
    pub charges: Vec<u64>,
    /// Room for event words.
    pub events: Vec<u64>,
}

/// Calls a function of the ledger, whose first eight arguments are the lent memory.
macro_rules! ledger {
    ($function:ident, $lent:expr, $($argument:expr),*) => {
        unsafe {
            ffi::$function(
                $lent.record.as_mut_ptr(), $lent.record.len(),
                $lent.array.as_mut_ptr(), $lent.array.len(),
                $lent.charges.as_mut_ptr(), $lent.charges.len(),
                $lent.events.as_mut_ptr(), $lent.events.len(),
                $($argument),*
            )
        }
    };
}

/// Calls a look at the cells, whose first six arguments are the lent memory.
macro_rules! look {
    ($function:ident, $lent:expr, $($argument:expr),*) => {
        unsafe {
            ffi::$function(
                $lent.record.as_ptr(), $lent.record.len(),
                $lent.array.as_ptr(), $lent.array.len(),
                $lent.charges.as_ptr(), $lent.charges.len(),
                $($argument),*
            )
        }
    };
}

/// The one length of a record.
pub fn record_len() -> usize {
    unsafe { ffi::flash_record_len() }
}

impl Lent {
    /// Memory of the right lengths, all zero: no state yet.
    pub fn zeroed() -> Self {
        Lent {
            record: vec![0; record_len()],
            array: vec![0; ARRAY_BYTES],
            charges: vec![0; CELLS],
            events: vec![0; EVENT_WORDS],
        }
    }

    /// A fresh array of the firmware.
    pub fn renew(&mut self, firmware: &[u8]) -> u32 {
        unsafe {
            ffi::flash_new(
                firmware.as_ptr(),
                firmware.len(),
                self.record.as_mut_ptr(),
                self.record.len(),
                self.array.as_mut_ptr(),
                self.array.len(),
                self.charges.as_ptr(),
                self.charges.len(),
            )
        }
    }

    /// A call of the ledger. A byte that is read goes to the low half of `value`; calls that read nothing leave it.
    pub fn call(&mut self, call: Call, at: Instant, value: &mut u16, count: &mut u64) -> u32 {
        let (s, f) = (at.seconds(), at.fraction());
        match call {
            Call::WriteRegister { address, value } => {
                ledger!(flash_write_register, self, address, value, s, f, count)
            }
            Call::Write8 { address, value } => {
                ledger!(flash_write8, self, address, value, s, f, count)
            }
            Call::Read8 { address } => {
                let [high, mut low] = value.to_be_bytes();
                let number = ledger!(flash_read8, self, address, s, f, &mut low, count);
                *value = u16::from_be_bytes([high, low]);
                number
            }
            Call::Read16 { address } => ledger!(flash_read16, self, address, s, f, value, count),
            Call::Protect => ledger!(flash_protect, self, s, f, count),
            Call::Reset => ledger!(flash_reset, self, s, f, count),
            Call::PowerOff => ledger!(flash_power_off, self, s, f, count),
            Call::Environment { mode, module, oscillator } => {
                ledger!(flash_environment, self, mode, module, oscillator, s, f, count)
            }
        }
    }

    /// What a register reads.
    pub fn register(&self, address: u16, value: &mut u8) -> u32 {
        unsafe { ffi::flash_register(self.record.as_ptr(), self.record.len(), address, value) }
    }

    /// Whether a read would be served from the stored array.
    pub fn normal(&self, at: Instant, normal: &mut u8) -> u32 {
        let (s, f) = (at.seconds(), at.fraction());
        unsafe { ffi::flash_normal(self.record.as_ptr(), self.record.len(), s, f, normal) }
    }

    /// Whether the state is one that a snapshot may hold.
    pub fn validate(&self, at: Instant, valid: &mut u8) -> u32 {
        let (s, f) = (at.seconds(), at.fraction());
        unsafe { ffi::flash_validate(self.record.as_ptr(), self.record.len(), s, f, valid) }
    }

    /// The byte that the cells hold.
    pub fn peek(&self, address: u16, at: Instant, value: &mut u8) -> u32 {
        look!(flash_peek, self, address, at.seconds(), at.fraction(), value)
    }

    /// The charge of one cell.
    pub fn cell_charge(&self, address: u16, bit: u8, at: Instant, charge: &mut u64) -> u32 {
        look!(flash_cell_charge, self, address, bit, at.seconds(), at.fraction(), charge)
    }

    /// Whether all bytes of the address's page read FF.
    pub fn blank_page(&self, address: u16, at: Instant, blank: &mut u8) -> u32 {
        look!(flash_blank_page, self, address, at.seconds(), at.fraction(), blank)
    }

    /// All bytes that the cells hold.
    pub fn image(&self, at: Instant, out: &mut [u8]) -> u32 {
        look!(flash_image, self, at.seconds(), at.fraction(), out.as_mut_ptr(), out.len())
    }

    /// The state as a snapshot, and its length.
    pub fn write_snapshot(&self, out: &mut [u8], length: &mut u64) -> u32 {
        look!(flash_write_snapshot, self, out.as_mut_ptr(), out.len(), length)
    }

    /// The state that a snapshot holds.
    pub fn read_snapshot(&mut self, bytes: &[u8], at: Instant) -> u32 {
        unsafe {
            ffi::flash_read_snapshot(
                bytes.as_ptr(),
                bytes.len(),
                self.record.as_mut_ptr(),
                self.record.len(),
                self.array.as_mut_ptr(),
                self.array.len(),
                self.charges.as_mut_ptr(),
                self.charges.len(),
                at.seconds(),
                at.fraction(),
            )
        }
    }
}
