//! Programming, verifying and erasing as a programmer does it, from time 0.
use super::*;

/// Verifies bytes from the first on under PV or EV, four at a time: a data write asks for the sense,
/// two words are read. Leaves only SWE, and gives an instant past recovery.
fn verified(chip: &mut Chip, mode: u8, first: u16, want: &[u8], at: u128) -> Result<u128, String> {
    control(chip, SWE | mode, at)?;
    let mut at = at;
    for (i, bytes) in want.chunks(4).enumerate() {
        let address = first + 4 * i as u16;
        done(chip, Ask::Write8(address, 0xff), at)?;
        at += micros(20);
        let high = u16::from_be_bytes([bytes[0], bytes[1]]);
        let low = u16::from_be_bytes([bytes[2], bytes[3]]);
        answers(chip, Ask::Read16(address), at, high.into())?;
        answers(chip, Ask::Read16(address + 2), at, low.into())?;
    }
    control(chip, SWE, at)?;
    Ok(at + micros(4))
}

/// Drops the pulse in order, then its setup bit; gives the instant of recovery.
fn dropped(chip: &mut Chip, setup: u8, end: u64, at: u128) -> Result<u128, String> {
    let words = control(chip, SWE | setup, at)?;
    same("last word", words.last(), Some(&end))?;
    gives(chip, Ask::WriteRegister(FLMCR1, SWE), at, &[])?;
    Ok(at + micros(10))
}

/// 200 µs are too short to read as programmed, but erase verify sees them already.
pub fn short_pulse() -> Check {
    let mut chip = fresh(0xff)?;
    let page = 0x3f80;
    let latch: Vec<(u16, u8)> =
        (page..page + PAGE).map(|a| (a, (a as u8).wrapping_mul(29))).collect();
    let start = program(&mut chip, &latch, 0)?;
    let at = dropped(&mut chip, PSU, completed(page, PAGE), start + micros(200))?;
    let mut weak = Vec::new();
    for (address, value) in latch {
        let charges = [0, 1, 2, 3, 4, 5, 6, 7].map(|bit| match value >> bit & 1 {
            0 => 100 * micros(200) as u64,
            _ => 0,
        });
        for (bit, charge) in (0..).zip(charges) {
            answers(&mut chip, Ask::CellCharge(address, bit), at, charge)?;
        }
        weak.push(sensed(address, &charges, EV));
    }
    let at = verified(&mut chip, PV, page, &[0xff; 128], at)?;
    let at = verified(&mut chip, EV, page, &weak, at)?;
    control(&mut chip, 0, at)?;
    let at = at + micros(100);
    answers(&mut chip, Ask::Read16(page), at, 0xffff)?;
    answers(&mut chip, Ask::BlankPage(page), at, 1)
}

pub fn whole_chip() -> Check {
    let mut chip = fresh(0xff)?;
    let wanted: Vec<u8> = (0..ARRAY_BYTES).map(|i| (i * 29 + i / 128) as u8).collect();
    let mut at = 0;
    for (page, bytes) in wanted.chunks(128).enumerate() {
        let first = page as u16 * PAGE;
        let latch: Vec<(u16, u8)> = (first..).zip(bytes.iter().copied()).collect();
        let end = program(&mut chip, &latch, at)? + micros(7_001);
        at = dropped(&mut chip, PSU, completed(first, PAGE), end)?;
    }
    at = verified(&mut chip, PV, 0, &wanted, at)?;
    holds("image is what was latched", image(&chip, at)? == wanted)?;
    for (value, first, length) in BLOCKS {
        let end = erase(&mut chip, value, at)? + micros(100_001);
        at = dropped(&mut chip, ESU, completed(first, length), end)?;
    }
    at = verified(&mut chip, EV, 0, &[0xff; ARRAY_BYTES], at)?;
    holds("image is blank", image(&chip, at)? == [0xff; ARRAY_BYTES])?;
    control(&mut chip, 0, at)?;
    at += micros(100);
    for address in (0..ARRAY_BYTES as u16).step_by(128) {
        answers(&mut chip, Ask::BlankPage(address), at, 1)?;
        answers(&mut chip, Ask::Read8(address), at, 0xff)?;
    }
    Ok(())
}

/// A verify sense and a normal read have to wait, to the very unit.
pub fn waits() -> Check {
    let mut chip = fresh(0x3c)?;
    let at = enable(&mut chip, 0)?;
    for (mode, wait, recovery) in [(PV, 4, 2), (EV, 20, 4)] {
        let mut chip = chip.clone();
        control(&mut chip, SWE | mode, at)?;
        done(&mut chip, Ask::Write8(0x102, 0), at)?;
        let due = at + micros(wait);
        answers(&mut chip, Ask::Read8(0x101), due - 1, 0xff)?;
        answers(&mut chip, Ask::Read8(0x101), due, 0x3c)?;
        control(&mut chip, SWE, due)?;
        let recovered = due + micros(recovery);
        answers(&mut chip, Ask::Normal, recovered - 1, 0)?;
        answers(&mut chip, Ask::Normal, recovered, 1)?;
        answers(&mut chip, Ask::Read8(0x101), recovered, 0x3c)?;
    }
    control(&mut chip, 0, at)?;
    answers(&mut chip, Ask::Normal, at + micros(100) - 1, 0)?;
    answers(&mut chip, Ask::Normal, at + micros(100), 1)
}
