//! Every number of the table of refusals that this interface can give, each with what it just takes.
use super::*;
use doqtarbu::{record_len, CELLS};

const LAST_SECOND: u128 = (u64::MAX as u128) << 64;

/// One of every function; each is answered on a fresh chip at any time.
pub const EVERY: [Ask; 15] = [
    Ask::WriteRegister(FLMCR1, SWE),
    Ask::WriteRegister(FENR, 0x80),
    Ask::Write8(0, 0),
    Ask::Read8(0),
    Ask::Read16(0),
    Ask::Protect,
    Ask::Reset,
    Ask::PowerOff,
    Ask::Environment(5, false, false),
    Ask::Register(FENR),
    Ask::Normal,
    Ask::Peek(0),
    Ask::CellCharge(0, 0),
    Ask::BlankPage(0),
    Ask::Image(ARRAY_BYTES),
];

fn timed() -> impl Iterator<Item = Ask> {
    EVERY.into_iter().filter(|ask| !matches!(ask, Ask::Register(_)))
}

pub fn taken(chip: &Chip, ask: Ask, at: u128) -> Check {
    done(&mut chip.clone(), ask, at).map(|_| ())
}

/// Asks of the chip, but with one of its buffers spoilt.
pub fn refused_with(chip: &Chip, spoil: fn(&mut Chip), ask: Ask, at: u128, number: u32) -> Check {
    let mut chip = chip.clone();
    spoil(&mut chip);
    refused(&mut chip, ask, at, number)
}

pub fn firmware_length() -> Check {
    let mut chip = Chip::unmade();
    for length in [0, ARRAY_BYTES - 1, ARRAY_BYTES + 1] {
        same(length, chip.renew(&vec![0; length]), 1)?;
        unchanged(&chip, &Chip::unmade())?;
    }
    chip.record.pop();
    same("1 before 2", chip.renew(&[0; 1]), 1)?;
    let firmware: Vec<u8> = (0..ARRAY_BYTES).map(|i| i as u8).collect();
    let mut chip = Chip::unmade();
    same("flash_new", chip.renew(&firmware), 0)?;
    holds("array is the firmware", chip.array == firmware)?;
    holds("charges stay", chip.charges == Chip::unmade().charges)
}

pub fn lent_lengths() -> Check {
    let chip = fresh(0xff)?;
    let record: [fn(&mut Chip); 3] = [
        |chip| chip.record.clear(),
        |chip| chip.record.truncate(record_len() - 1),
        |chip| chip.record.push(0),
    ];
    let cells: [fn(&mut Chip); 5] = [
        |chip| chip.array.clear(),
        |chip| chip.array.truncate(ARRAY_BYTES - 1),
        |chip| chip.array.push(0),
        |chip| chip.charges.truncate(CELLS - 1),
        |chip| chip.charges.push(0),
    ];
    for spoil in record.into_iter().chain(cells) {
        let mut new = Chip::unmade();
        spoil(&mut new);
        let before = new.clone();
        same("flash_new", new.renew(&[0; ARRAY_BYTES]), 2)?;
        unchanged(&new, &before)?;
    }
    for ask in EVERY {
        taken(&chip, ask, 0)?;
        for spoil in record {
            refused_with(&chip, spoil, ask, 0, 2)?;
        }
        if !matches!(ask, Ask::Register(_) | Ask::Normal) {
            for spoil in cells {
                refused_with(&chip, spoil, ask, 0, 2)?;
            }
        }
    }
    Ok(())
}

/// The chip with one byte of its record spoilt; the layout is free, so which one is found by trying.
fn spoilt(chip: &Chip) -> Result<Chip, String> {
    for i in 0..chip.record.len() {
        let mut chip = chip.clone();
        chip.record[i] = 0xff;
        if chip.ask(Ask::Register(FENR), 0).refusal == 3 {
            return Ok(chip);
        }
    }
    Err("no byte of the record is ever refused".into())
}

pub fn spoilt_records() -> Check {
    let mut chip = fresh(0xff)?;
    for i in 0..chip.record.len() {
        let kept = std::mem::replace(&mut chip.record[i], 0xff);
        let number = chip.ask(Ask::Register(FENR), 0).refusal;
        if number == 3 {
            refused(&mut chip, Ask::Register(FENR), 0, 3)?;
            refused(&mut chip, Ask::Normal, 0, 3)?;
            refused(&mut chip, Ask::Peek(0), 0, 3)?;
        } else {
            same(("byte", i), number, 0)?;
            // A spoilt time may be one that is past, but the record is one of a state.
            let other = chip.ask(Ask::Peek(0), 0).refusal;
            holds(("peek, byte", i), other == 0 || other == 6)?;
        }
        chip.record[i] = kept;
    }
    let chip = spoilt(&chip)?;
    EVERY.into_iter().try_for_each(|ask| refused(&mut chip.clone(), ask, 0, 3))
}

pub fn places() -> Check {
    let chip = fresh(0x5a)?;
    let edges = [
        (Ask::Read8(0xbfff), Ask::Read8(0xc000)),
        (Ask::Read16(0xbffe), Ask::Read16(0xbfff)),
        (Ask::Read16(0xbffd), Ask::Read16(0xffff)),
        (Ask::Write8(0xbfff, 0), Ask::Write8(0xc000, 0)),
        (Ask::Peek(0xbfff), Ask::Peek(0xc000)),
        (Ask::BlankPage(0xbfff), Ask::BlankPage(0xc000)),
        (Ask::CellCharge(0xbfff, 0), Ask::CellCharge(0xc000, 0)),
        (Ask::CellCharge(0, 7), Ask::CellCharge(0, 8)),
        (Ask::Environment(5, true, true), Ask::Environment(6, true, true)),
        (Ask::Environment(0, true, true), Ask::Environment(255, true, true)),
        (Ask::WriteRegister(0xffff, 0), Ask::Read8(0xffff)),
    ];
    for (inside, outside) in edges {
        taken(&chip, inside, 0)?;
        refused(&mut chip.clone(), outside, 0, 4)?;
    }
    answers(&mut chip.clone(), Ask::Read16(0xbffe), 0, 0x5a5a)
}

pub fn last_second() -> Check {
    let chip = fresh(0xff)?;
    for ask in timed().chain([Ask::Environment(0, true, true)]) {
        taken(&chip, ask, LAST_SECOND - 1)?;
        refused(&mut chip.clone(), ask, LAST_SECOND, 5)?;
        refused(&mut chip.clone(), ask, u128::MAX, 5)?;
    }
    taken(&chip, Ask::Register(FENR), LAST_SECOND)
}

pub fn before_settling() -> Check {
    // One instant differs from the settling in its fraction only, the other in its seconds only.
    let at = 7 << 64 | 5;
    let mut chip = fresh(0xff)?;
    done(&mut chip, Ask::Reset, at)?;
    for ask in timed().chain([Ask::Environment(0, true, true)]) {
        taken(&chip, ask, at)?;
        refused(&mut chip.clone(), ask, at - 1, 6)?;
        refused(&mut chip.clone(), ask, 6 << 64 | 5, 6)?;
    }
    taken(&chip, Ask::Register(FENR), 0)
}

pub fn order() -> Check {
    let mut chip = fresh(0xff)?;
    let start = program(&mut chip, &[(0, 0)], 1 << 64)?;
    done(&mut chip, Ask::WriteRegister(FLMCR2, 0), start)?;
    chip.events.truncate(128);
    let no_record = spoilt(&fresh(0xff)?)?;
    let short: fn(&mut Chip) = |chip| chip.array.truncate(1);
    let (past, write) = (Ask::Read8(0xc000), Ask::WriteRegister(FLMCR1, 0));
    refused_with(&no_record, short, past, LAST_SECOND, 2)?;
    refused_with(&chip, short, past, LAST_SECOND, 2)?;
    refused(&mut no_record.clone(), past, LAST_SECOND, 3)?;
    for ask in [past, Ask::Peek(0xc000), Ask::Environment(6, false, false)] {
        refused(&mut chip, ask, LAST_SECOND, 4)?;
        refused(&mut chip, ask, start - 1, 4)?;
        refused(&mut chip, ask, start, 4)?;
    }
    refused(&mut chip, write, LAST_SECOND, 5)?;
    refused(&mut chip, Ask::Image(0), LAST_SECOND, 5)?;
    refused(&mut chip, write, start - 1, 6)?;
    refused(&mut chip, Ask::Image(0), start - 1, 6)?;
    refused(&mut chip, write, start, 7)?;
    refused(&mut chip, Ask::Image(0), start, 8)
}
