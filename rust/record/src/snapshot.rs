//! Where the fields of a snapshot stand, by document 01 and the Borsh specification: to choose what to damage, and to take from what the
//! original wrote the charges and the last settling, for which it has no function.
use crate::call::ARRAY;
use original::Original;

pub const FULL: u64 = 12_912_720_851_596_686_100;
pub const COUNT: usize = ARRAY;
pub const PAGES: usize = COUNT + 4;
pub const PAGE_BYTES: usize = 2 + 1024 * 8;
/// The longest: every page opened, a verify sense pending.
pub const LONGEST: usize = PAGES + 384 * PAGE_BYTES + 256 + 18;

/// The fields after the charge pages, from where those end.
pub const CONTROL: usize = 0;
pub const ERROR: usize = 1;
pub const ERASE: usize = 2;
pub const ENABLED: usize = 3;
pub const POWER_DOWN: usize = 4;
pub const LATCH: usize = 5;
pub const PAGE: usize = 133;
pub const SUPPLY: usize = 135;
pub const OSCILLATOR: usize = 136;
pub const MODE: usize = 137;
pub const MODULE: usize = 138;
pub const READY: usize = 139;
pub const SWE_READY: usize = 155;
pub const PROGRAM_READY: usize = 171;
pub const ERASE_READY: usize = 187;
pub const RECOVERY: usize = 203;
pub const SINCE: usize = 219;
pub const VERIFY_READY: usize = 235;
pub const OPTION: usize = 251;
pub const PENDING_ADDRESS: usize = 252;

pub fn of(chip: &Original) -> Vec<u8> {
    let mut bytes = Vec::new();
    chip.write_snapshot(&mut bytes);
    bytes
}

/// The snapshot of a copy that is reset at that time, for a reset settles.
pub fn settled(chip: &Original, at: u128) -> Vec<u8> {
    let mut copy = chip.clone();
    copy.reset(at, &mut ());
    of(&copy)
}

fn number(bytes: &[u8]) -> u64 {
    bytes.iter().rev().fold(0, |n, byte| n << 8 | u64::from(*byte))
}

pub fn pages(snapshot: &[u8]) -> usize {
    number(&snapshot[COUNT..PAGES]) as usize
}

/// Where the charge page with this number begins.
pub fn page(slot: usize) -> usize {
    PAGES + slot * PAGE_BYTES
}

/// Where a cell of the charge page with this number stands.
pub fn cell(slot: usize, cell: usize) -> usize {
    page(slot) + 2 + 8 * cell
}

/// Where the fields after the charge pages begin.
pub fn fields(snapshot: &[u8]) -> usize {
    page(pages(snapshot))
}

/// The time of the last settling.
pub fn since(snapshot: &[u8]) -> u128 {
    let time = &snapshot[fields(snapshot) + SINCE..][..16];
    u128::from(number(&time[8..])) << 64 | u128::from(number(&time[..8]))
}

/// The charge of a cell: of a page that was never opened, what its stored bit stands for.
pub fn charge(snapshot: &[u8], address: u16, bit: u8) -> u64 {
    let (address, bit) = (usize::from(address), usize::from(bit));
    let slot = (0..pages(snapshot))
        .find(|slot| number(&snapshot[page(*slot)..][..2]) as usize == address / 128 * 128);
    match slot {
        Some(slot) => number(&snapshot[cell(slot, address % 128 * 8 + bit)..][..8]),
        None if snapshot[address] >> bit & 1 == 1 => 0,
        None => FULL,
    }
}

/// The class of a cell of the array.
pub fn class(cell: usize) -> u128 {
    (((13 * cell) ^ (cell / 16)) % 16) as u128
}

/// The limits of a class: normally, under program verify, under erase verify.
pub fn limits(class: u128) -> [u64; 3] {
    let full = u128::from(FULL);
    [full * (16 + class) / 62, full * (16 + class) / 31, full * class / 256].map(|q| q as u64)
}
