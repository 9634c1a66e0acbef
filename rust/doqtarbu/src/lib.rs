//! The flash of a password box, for Rust: a safe wrapper over the proved library's host interface.
//!
//! [`Flash`] owns the memory that the library is lent. Its calls take an [`Instant`] and answer, or say
//! by a [`Refusal`] why they did nothing; a refused call changes nothing. What a call did to the cells
//! is told by [`Flash::events`].
//!
//! ```
//! use doqtarbu::{register, Event, Flash, Instant};
//!
//! let mut flash = Flash::new(&[0xff; doqtarbu::ARRAY_BYTES])?;
//! let at = |micros| Instant::from_micros(micros);
//! flash.write_register(register::FENR, 0x80, at(0))?;
//! flash.write_register(register::FLMCR1, register::SWE, at(0))?;
//! flash.write8(0x80, 0x00, at(10))?; // latch a byte of page 80 hex
//! flash.write_register(register::FLMCR1, register::SWE | register::PSU, at(20))?;
//! flash.write_register(register::FLMCR1, register::SWE | register::PSU | register::P, at(100))?;
//! assert_eq!(flash.peek(0x80, at(7_100))?, 0x00); // 7 ms program a cell fully
//! flash.write_register(register::FLMCR1, register::SWE | register::PSU, at(7_100))?;
//! let events: Vec<Event> = flash.events().collect();
//! assert_eq!(events[0], Event::Byte { address: 0x80, value: 0x00 });
//! assert_eq!(events[1], Event::Completed { address: 0x80, length: 128 });
//! assert!(!flash.blank_page(0x80, at(7_100))?);
//! # Ok::<(), doqtarbu::Refusal>(())
//! ```
//!
//! [`Lent`] is the layer below: the same functions on memory of any length and contents, with the
//! library's bare numbers. Whoever tests the interface itself wants it; others do not.
#![deny(unsafe_code, missing_docs)]

mod call;
mod event;
#[allow(unsafe_code)]
mod ffi;
mod flash;
mod instant;
#[allow(unsafe_code)]
mod lent;
mod refusal;
pub mod register;

pub use call::{Call, Mode};
pub use event::Event;
pub use flash::Flash;
pub use instant::Instant;
pub use lent::{record_len, Lent};
pub use refusal::Refusal;

/// The bytes of the array.
pub const ARRAY_BYTES: usize = 49_152;
/// The cells of the array, eight to a byte, bit 0 first.
pub const CELLS: usize = 393_216;
/// The bytes of a page.
pub const PAGE_BYTES: usize = 128;
/// The pages of the array.
pub const PAGES: usize = 384;
/// The charge of a cell that is programmed fully.
pub const FULL: u64 = 12_912_720_851_596_686_100;
/// The event words that any call may need: one for each byte of block 4, and one for the pulse's end.
pub const EVENT_WORDS: usize = 0x7001;
/// The bytes of the longest snapshot: every page opened, a verify sense pending.
pub const SNAPSHOT_BYTES: usize = 49_412 + PAGES * 8_194 + 18;
