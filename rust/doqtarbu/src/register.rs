//! The registers' addresses and bits, by the manual's names.

/// Control: the bits below.
pub const FLMCR1: u16 = 0xf020;
/// Error, bit 7; read only.
pub const FLMCR2: u16 = 0xf021;
/// Power-down disabled, bit 7.
pub const FLPWCR: u16 = 0xf022;
/// Erase: the block to erase, one bit each.
pub const EBR1: u16 = 0xf023;
/// Enabled, bit 7: while it is clear the others read 0 and ignore writes.
pub const FENR: u16 = 0xf02b;
/// All of them.
pub const ALL: [u16; 5] = [FLMCR1, FLMCR2, FLPWCR, EBR1, FENR];

/// Software write enable.
pub const SWE: u8 = 0x40;
/// Erase setup.
pub const ESU: u8 = 0x20;
/// Program setup.
pub const PSU: u8 = 0x10;
/// Erase verify.
pub const EV: u8 = 8;
/// Program verify.
pub const PV: u8 = 4;
/// Erase.
pub const E: u8 = 2;
/// Program.
pub const P: u8 = 1;
