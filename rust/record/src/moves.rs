//! Moves that the groups share. Names are the manual's.
use crate::call::Call;
pub use crate::call::BLOCKS;
use crate::list::List;

pub const FLMCR1: u16 = 0xf020;
pub const FLMCR2: u16 = 0xf021;
pub const FLPWCR: u16 = 0xf022;
pub const EBR1: u16 = 0xf023;
pub const FENR: u16 = 0xf02b;
pub const SWE: u8 = 0x40;
pub const ESU: u8 = 0x20;
pub const PSU: u8 = 0x10;
pub const EV: u8 = 8;
pub const PV: u8 = 4;
pub const E: u8 = 2;
pub const P: u8 = 1;

pub const fn micros(n: u64) -> u128 {
    ((n as u128) << 64) / 1_000_000
}

impl List {
    pub fn wait(&mut self, n: u64) {
        self.now += micros(n);
    }

    pub fn wait_units(&mut self, n: u128) {
        self.now += n;
    }

    pub fn write(&mut self, address: u16, value: u8) {
        self.call(Call::WriteRegister(address, value));
    }

    pub fn control(&mut self, value: u8) {
        self.write(FLMCR1, value);
    }

    pub fn data(&mut self, address: u16, value: u8) {
        self.call(Call::Write8(address, value));
    }

    /// Settles and does nothing else: a register that nobody has.
    pub fn settle(&mut self) {
        self.write(0xf024, 0);
    }

    /// Enables the registers, sets SWE, and waits until it is ready.
    pub fn enable(&mut self) {
        self.write(FENR, 0x80);
        self.control(SWE);
        self.wait(1);
    }

    /// Latches the bytes and opens a program pulse over their page; `now` is then the instant from which it charges. P is set long
    /// before it, so that a setup time that charges would show.
    pub fn program(&mut self, bytes: &[(u16, u8)]) {
        for (address, value) in bytes {
            self.data(*address, *value);
        }
        self.control(SWE | PSU);
        self.control(SWE | PSU | P);
        self.wait(50);
    }

    /// Opens an erase pulse over what the erase register's value selects, likewise.
    pub fn erase(&mut self, value: u8) {
        self.write(EBR1, value);
        self.control(SWE | ESU);
        self.control(SWE | ESU | E);
        self.wait(100);
    }
}
