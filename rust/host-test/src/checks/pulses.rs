//! Worked instants of document 01, and how pulses end.
use super::*;

pub fn worked_e() -> Check {
    let mut chip = fresh(0xff)?;
    let end = program(&mut chip, &[(0, 0xfe)], 0)? + 129_127_208_515_966_861;
    answers(&mut chip, Ask::CellCharge(0, 0), end - 1, FULL - 100)?;
    answers(&mut chip, Ask::CellCharge(0, 0), end, FULL)?;
    answers(&mut chip, Ask::CellCharge(0, 0), end + 1, FULL)
}

pub fn worked_f() -> Check {
    let mut chip = fresh(0)?;
    let start = erase(&mut chip, 1, 0)?;
    let end = start + 1_844_674_407_370_955_157;
    answers(&mut chip, Ask::CellCharge(0, 0), start, FULL)?;
    answers(&mut chip, Ask::CellCharge(0, 0), end, 1)?;
    answers(&mut chip, Ask::CellCharge(0, 0), end + 1, 0)
}

pub fn worked_g() -> Check {
    for (written, stored) in [(3, 0), (64, 64)] {
        let mut chip = fresh(0)?;
        let start = erase(&mut chip, written, 0)?;
        answers(&mut chip, Ask::Register(EBR1), start, stored)?;
        let drop = Ask::WriteRegister(FLMCR1, SWE | ESU);
        gives(&mut chip, drop, start + micros(200_000), &[])?;
        holds(("array stays", written), chip.array == [0; ARRAY_BYTES])?;
    }
    Ok(())
}

/// Latches bit 0 of 80 hex as 0, exposes it so long and drops P; gives the chip and the words.
pub fn exposed(length: u128) -> Result<(Chip, Vec<u64>), String> {
    let mut chip = fresh(0xff)?;
    let start = program(&mut chip, &[(0x80, 0xfe)], 0)?;
    let words = control(&mut chip, SWE | PSU, start + length)?;
    Ok((chip, words))
}

pub fn worked_h() -> Check {
    let length = 33_323_150_584_765_642;
    let (chip, words) = exposed(length)?;
    same("just so long", words, vec![0x1_0080_00fe, 0x2_0080_0080])?;
    same("byte", chip.array[0x80], 0xfe)?;
    let (chip, words) = exposed(length - 1)?;
    same("one unit less", words, vec![0x2_0080_0080])?;
    same("byte, one unit less", chip.array[0x80], 0xff)
}

pub fn endings() -> Check {
    let mut page = fresh(0xff)?;
    let mut block = fresh(0xff)?;
    let page_end = program(&mut page, &[(0x80, 0)], 0)? + 1;
    let block_end = erase(&mut block, 2, 0)? + 1;
    let cut_short = [
        Ask::Reset,
        Ask::PowerOff,
        Ask::Protect,
        Ask::Read8(0),
        Ask::Read16(0),
        Ask::Environment(0, true, false),
        Ask::WriteRegister(FLMCR1, SWE),
        Ask::WriteRegister(FLMCR1, 0),
        Ask::WriteRegister(FLMCR1, SWE | PSU | ESU),
    ];
    for ask in cut_short {
        gives(&mut page.clone(), ask, page_end, &[interrupted(0x80, 0x80)])?;
        gives(&mut block.clone(), ask, block_end, &[interrupted(0x400, 0x400)])?;
    }
    let drop_p = Ask::WriteRegister(FLMCR1, SWE | PSU);
    gives(&mut page, drop_p, page_end, &[completed(0x80, 0x80)])?;
    let drop_e = Ask::WriteRegister(FLMCR1, SWE | ESU);
    gives(&mut block.clone(), drop_e, block_end, &[completed(0x400, 0x400)])?;
    // Another block cuts the pulse short and opens the next.
    let other = Ask::WriteRegister(EBR1, 4);
    gives(&mut block, other, block_end, &[interrupted(0x400, 0x400)])?;
    gives(&mut block, drop_e, block_end, &[completed(0x800, 0x400)])
}
