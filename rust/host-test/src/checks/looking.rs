//! Looks under an open pulse agree with each other, with the rule, and with what a settling leaves.
use super::*;
use crate::chip::MARK;
use std::ops::Range;

/// Every third page is blank, but for the last such, which lacks one bit.
pub fn mixed() -> Vec<u8> {
    let byte = |i| match i {
        0xbeff => 0x7f,
        _ if i / 128 % 3 == 0 => 0xff,
        _ => (i * 37) as u8,
    };
    (0..ARRAY_BYTES).map(byte).collect()
}

/// Demands that all looks at the instant tell of the same cells; gives their image.
fn agree(chip: &mut Chip, at: u128) -> Result<Vec<u8>, String> {
    let before = chip.clone();
    let image = image(chip, at)?;
    for address in (0..ARRAY_BYTES as u16).step_by(3) {
        answers(chip, Ask::Peek(address), at, image[usize::from(address)].into())?;
    }
    for (page, bytes) in image.chunks(128).enumerate() {
        // Any address in the page will do.
        let address = page as u16 * PAGE + page as u16 % PAGE;
        let blank = bytes.iter().all(|byte| *byte == 0xff);
        answers(chip, Ask::BlankPage(address), at, blank.into())?;
    }
    unchanged(chip, &before)?;
    Ok(image)
}

fn charges_of(chip: &mut Chip, bytes: Range<u16>, at: u128) -> Result<Vec<u64>, String> {
    let cells = bytes.flat_map(|address| (0..8).map(move |bit| Ask::CellCharge(address, bit)));
    cells.map(|ask| Ok(done(chip, ask, at)?.0)).collect()
}

/// Demands these charges of the bytes' cells, and that they sense as the image says.
fn charged(chip: &mut Chip, bytes: Range<u16>, at: u128, image: &[u8], want: &[u64]) -> Check {
    let charges = charges_of(chip, bytes.clone(), at)?;
    for (address, (got, want)) in bytes.zip(charges.chunks(8).zip(want.chunks(8))) {
        same(("charges", address), got, want)?;
        same(("senses", address), sensed(address, got, 0), image[usize::from(address)])?;
    }
    Ok(())
}

/// Settles by a write that does nothing else. Demands that this leaves the image, and the pages'
/// charges in the slots, in this order, and that the other slots keep their numbers.
fn settled(chip: &Chip, at: u128, image: &[u8], pages: &[u16]) -> Check {
    let mut chip = chip.clone();
    done(&mut chip, Ask::WriteRegister(FLMCR2, 0), at)?;
    holds(("array is the image", at), chip.array == image)?;
    let mut want = Vec::new();
    for page in pages {
        want.extend(charges_of(&mut chip, *page..page + PAGE, at)?);
    }
    holds(("slots in use", at), chip.charges[..want.len()] == want)?;
    holds(("other slots", at), chip.charges[want.len()..].iter().all(|q| *q == MARK))
}

pub fn program_pulse() -> Check {
    let mut chip = made(&mixed())?;
    let page = 0x1080..0x1100;
    let latch: Vec<(u16, u8)> = page.clone().map(|a| (a, (a as u8).wrapping_mul(11))).collect();
    let start = program(&mut chip, &latch, 0)?;
    let firsts = charges_of(&mut chip, page.clone(), start)?;
    let beside = charges_of(&mut chip, 0x1100..0x1180, start)?;
    for length in [0, 1, micros(1_900), micros(2_500), micros(3_400), micros(8_000)] {
        let at = start + length;
        let image = agree(&mut chip, at)?;
        let programmed = |(i, first): (usize, &u64)| match latch[i / 8].1 >> (i % 8) & 1 {
            0 => (u128::from(*first) + 100 * length).min(FULL.into()) as u64,
            _ => *first,
        };
        let want: Vec<u64> = firsts.iter().enumerate().map(programmed).collect();
        charged(&mut chip, page.clone(), at, &image, &want)?;
        charged(&mut chip, 0x1100..0x1180, at, &image, &beside)?;
        let opened: &[u16] = if length == 0 { &[] } else { &[0x1080] };
        settled(&chip, at, &image, opened)?;
    }
    Ok(())
}

pub fn erase_pulse() -> Check {
    let mut chip = made(&mixed())?;
    // The block's second page is opened beforehand, and so has the first slot.
    let start = program(&mut chip, &[(0x480, 0)], 0)?;
    control(&mut chip, SWE | PSU, start + micros(1))?;
    control(&mut chip, SWE, start + micros(1))?;
    let start = erase(&mut chip, 2, start + micros(50))?;
    let firsts = charges_of(&mut chip, 0x400..0x800, start)?;
    for length in [0, 1, micros(51_000), micros(70_000), micros(120_000)] {
        let at = start + length;
        let image = agree(&mut chip, at)?;
        let moved = (7 * length).min(FULL.into()) as u64;
        let want: Vec<u64> = firsts.iter().map(|first| first.saturating_sub(moved)).collect();
        charged(&mut chip, 0x400..0x800, at, &image, &want)?;
        let pages = [0x480, 0x400, 0x500, 0x580, 0x600, 0x680, 0x700, 0x780];
        settled(&chip, at, &image, if length == 0 { &pages[..1] } else { &pages })?;
    }
    Ok(())
}

/// A reset makes the same state of a fresh chip, and of one whose registers were used.
pub fn equal_states() -> Check {
    let mut chip = fresh(0xff)?;
    let new = chip.clone();
    done(&mut chip, Ask::Reset, 0)?;
    unchanged(&chip, &new)?;
    let at = enable(&mut chip, 0)?;
    let mut other = chip.clone();
    done(&mut other, Ask::Write8(0xbfff, 0), at)?;
    done(&mut other, Ask::WriteRegister(EBR1, 4), at)?;
    done(&mut other, Ask::WriteRegister(FLPWCR, 0x80), at)?;
    holds("records differ", chip.record != other.record)?;
    done(&mut chip, Ask::Reset, at)?;
    done(&mut other, Ask::Reset, at)?;
    holds("records are equal", chip.record == other.record)
}
