//! The states in which a line finds the chip.
use crate::side::Side;
use doqtarbu::{
    register::{E, EBR1, ESU, FENR, FLMCR1, FLMCR2, P, PSU, SWE},
    Instant, ARRAY_BYTES, PAGE_BYTES,
};

/// An exposure so short that no cell of firmware crosses a limit, however often it comes again.
pub const SHORT: u128 = 1_000;
/// An exposure after which every cell that a pulse moves has come to its end.
pub const LONG: u128 = Instant::from_micros(200_000).0;
/// An exposure that erases some of the programmed cells below their limits, and others not.
pub const PART: u128 = Instant::from_micros(60_000).0;

/// The page that is programmed.
const PAGE: u16 = 0x1080;

/// What the chip holds before the pulse.
#[derive(Clone, Copy)]
pub enum Firmware {
    /// Bytes without a pattern, as in a program: cells of both kinds everywhere.
    Mixed,
    /// One byte everywhere, so that a long pulse changes all of them.
    All(u8),
}

#[derive(Clone, Copy)]
pub enum State {
    /// No pulse, reading is normal; so many pages have been opened: 0, 1, or those of some blocks.
    Idle(usize),
    /// A program pulse is open and past its wait.
    Program(Firmware),
    /// An erase pulse of this block is open and past its wait.
    Erase(Firmware, usize),
}

/// So many bytes without a pattern, the same at every start.
fn mixed(count: usize) -> Vec<u8> {
    let mut x = 0x9e37_79b9_7f4a_7c15u64;
    let mut next = || {
        x ^= x << 13;
        x ^= x >> 7;
        x ^= x << 17;
        (x >> 32) as u8
    };
    (0..count).map(|_| next()).collect()
}

impl Firmware {
    fn bytes(self) -> Vec<u8> {
        match self {
            Firmware::Mixed => mixed(ARRAY_BYTES),
            Firmware::All(byte) => vec![byte; ARRAY_BYTES],
        }
    }

    /// What a program pulse on it has in the latch: again both kinds, or zeros that reach all cells.
    fn latch(self) -> Vec<u8> {
        match self {
            Firmware::Mixed => mixed(PAGE_BYTES),
            Firmware::All(_) => vec![0; PAGE_BYTES],
        }
    }
}

/// The instant, moved on by so many microseconds.
fn after(now: &mut u128, micros: u64) -> u128 {
    *now += Instant::from_micros(micros).0;
    *now
}

fn open_program(side: &mut impl Side, latch: &[u8], now: &mut u128) {
    side.write_register(FLMCR1, SWE, after(now, 200));
    for (i, byte) in latch.iter().enumerate() {
        side.write8(PAGE + i as u16, *byte, after(now, 2));
    }
    side.write_register(FLMCR1, SWE | PSU, after(now, 2));
    side.write_register(FLMCR1, SWE | PSU | P, after(now, 200));
}

fn open_erase(side: &mut impl Side, block: usize, now: &mut u128) {
    side.write_register(FLMCR1, SWE, after(now, 200));
    side.write_register(EBR1, 1 << block, after(now, 2));
    side.write_register(FLMCR1, SWE | ESU, after(now, 2));
    side.write_register(FLMCR1, SWE | ESU | E, after(now, 200));
}

/// Opens the pulse's pages by a short exposure, and closes the pulse.
fn touch(side: &mut impl Side, now: &mut u128) {
    *now += SHORT;
    side.write_register(FLMCR2, 0, *now);
    side.write_register(FLMCR1, 0, *now);
}

impl State {
    /// Brings a chip into the state; the answer is the instant then.
    pub fn prepare(self, side: &mut impl Side) -> u128 {
        let mut now = 0;
        match self {
            State::Idle(pages) => {
                side.renew(&Firmware::Mixed.bytes());
                side.write_register(FENR, 0x80, now);
                if pages == 1 {
                    open_program(side, &Firmware::Mixed.latch(), &mut now);
                    touch(side, &mut now);
                }
                let blocks: &[usize] = match pages {
                    8 => &[0],
                    128 => &[5],
                    224 => &[4],
                    384 => &[0, 1, 2, 3, 4, 5],
                    _ => &[],
                };
                for block in blocks {
                    open_erase(side, *block, &mut now);
                    touch(side, &mut now);
                }
                after(&mut now, 200);
            }
            State::Program(firmware) => {
                side.renew(&firmware.bytes());
                side.write_register(FENR, 0x80, now);
                open_program(side, &firmware.latch(), &mut now);
            }
            State::Erase(firmware, block) => {
                side.renew(&firmware.bytes());
                side.write_register(FENR, 0x80, now);
                open_erase(side, block, &mut now);
            }
        }
        now
    }
}
