//! What is done to the chip, and the firmware that it begins with.
use original::{Mode, Original, Output};

pub const ARRAY: usize = 49_152;

/// The erase register's blocks: its value, the first address and the one after the last.
pub const BLOCKS: [(u8, u16, u16); 6] = [
    (1, 0, 0x400),
    (2, 0x400, 0x800),
    (4, 0x800, 0xc00),
    (8, 0xc00, 0x1000),
    (16, 0x1000, 0x8000),
    (32, 0x8000, 0xc000),
];

/// A call of the ledger, apart from when.
#[derive(Clone, Copy, Debug, PartialEq, Eq)]
pub enum Call {
    WriteRegister(u16, u8),
    Write8(u16, u8),
    Read8(u16),
    Read16(u16),
    Protect,
    Reset,
    PowerOff,
    /// Mode by its number, module, oscillator.
    Environment(u8, bool, bool),
}

impl Call {
    /// Does it to the original at a time in raw units. Gives what was read, 0 if nothing was.
    pub fn run(self, chip: &mut Original, now: u128, out: &mut dyn Output) -> u16 {
        let answer = match self {
            Call::WriteRegister(address, value) => {
                chip.write_register(address, value, now, out).map(|()| 0)
            }
            Call::Write8(address, value) => chip.write8(address, value, now, out).map(|()| 0),
            Call::Read8(address) => chip.read8(address, now, out).map(u16::from),
            Call::Read16(address) => chip.read16(address, now, out),
            Call::Protect => chip.protect(now, out).map(|()| 0),
            Call::Reset => {
                chip.reset(now, out);
                Ok(0)
            }
            Call::PowerOff => {
                chip.power_off(now, out);
                Ok(0)
            }
            Call::Environment(number, module, oscillator) => {
                let mode = Mode::from_number(number).expect("modes are 0 to 5");
                chip.environment(mode, module, oscillator, now, out).map(|()| 0)
            }
        };
        answer.expect("the original errs only at the end of time")
    }
}

/// Firmware by a formula that the replay knows: each byte is the third of a 32-bit number, and the next number is this one times the factor
/// plus the step.
#[derive(Clone, Copy, Debug)]
pub struct Firmware {
    pub length: u32,
    pub seed: u32,
    pub factor: u32,
    pub step: u32,
}

impl Firmware {
    /// One byte throughout.
    pub fn filled(byte: u8) -> Self {
        Self { length: ARRAY as u32, seed: u32::from(byte) << 16, factor: 1, step: 0 }
    }

    /// The formula of C's old `rand`.
    pub fn noise(seed: u32) -> Self {
        Self { length: ARRAY as u32, seed, factor: 1_103_515_245, step: 12_345 }
    }

    pub fn of_length(self, length: u32) -> Self {
        Self { length, ..self }
    }

    pub fn bytes(self) -> Vec<u8> {
        let mut number = self.seed;
        (0..self.length)
            .map(|_| {
                let byte = (number >> 16) as u8;
                number = number.wrapping_mul(self.factor).wrapping_add(self.step);
                byte
            })
            .collect()
    }
}

/// A chip from its first byte on: what a generator of histories gives.
#[derive(Clone, Debug)]
pub struct History {
    pub firmware: Firmware,
    /// Times rise, in raw units.
    pub calls: Vec<(Call, u128)>,
}
