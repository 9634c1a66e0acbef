//! Room for event words and for output: what is too little, what just does, and what stays past the answer.
use super::looking::mixed;
use super::pulses::exposed;
use super::refusals::{refused_with, taken, EVERY};
use super::*;
use crate::chip::{MARK, MARK_BYTE};

/// Those that settle while a pulse is open.
const SETTLING: [Ask; 9] = [
    Ask::WriteRegister(FLMCR1, SWE),
    Ask::WriteRegister(FLMCR2, 0),
    Ask::Write8(0, 0),
    Ask::Read8(0),
    Ask::Read16(0),
    Ask::Protect,
    Ask::Reset,
    Ask::PowerOff,
    Ask::Environment(5, false, false),
];

/// Every byte of the range changes, so that with just enough words all of them are used.
fn just_enough(mut chip: Chip, at: u128, first: u16, k: u16, byte: u8) -> Check {
    let mut want: Vec<u64> = (first..first + k).map(|a| byte_word(a, byte)).collect();
    want.push(interrupted(first, k));
    let k = usize::from(k);
    for ask in SETTLING {
        chip.events.resize(k, 0);
        refused(&mut chip, ask, at, 7)?;
        refused_with(&chip, |chip| chip.events.clear(), ask, at, 7)?;
        chip.events.push(0);
        let words = done(&mut chip.clone(), ask, at)?.1;
        let open = matches!(ask, Ask::WriteRegister(FLMCR2, _) | Ask::Write8(..));
        holds((ask, first, k), words == want[..if open { k } else { k + 1 }])?;
    }
    Ok(())
}

pub fn event_room() -> Check {
    let zeros: Vec<(u16, u8)> = (0x2000..0x2080).map(|a| (a, 0)).collect();
    let mut chip = fresh(0xff)?;
    let start = program(&mut chip, &zeros, 0)?;
    just_enough(chip, start + micros(8_000), 0x2000, PAGE, 0)?;
    for (value, first, k) in BLOCKS {
        let mut chip = fresh(0)?;
        let start = erase(&mut chip, value, 0)?;
        just_enough(chip, start + micros(110_000), first, k, 0xff)?;
    }
    Ok(())
}

pub fn event_room_unneeded() -> Check {
    let still = Ask::Environment(0, true, true);
    let mut chip = fresh(0xff)?;
    chip.events.clear();
    for ask in EVERY.into_iter().chain([still]) {
        taken(&chip, ask, 0)?;
    }
    let at = enable(&mut chip, 0)?;
    for ask in SETTLING {
        taken(&chip, ask, at)?;
    }
    // A pulse over nothing needs no room.
    let start = erase(&mut chip, 0, at)?;
    gives(&mut chip, Ask::Reset, start + 1, &[])?;
    chip.events.resize(129, 0);
    let start = program(&mut chip, &[(0, 0)], start + 1)?;
    chip.events.clear();
    for ask in EVERY.into_iter().filter(|ask| ask.is_look()).chain([still]) {
        taken(&chip, ask, start)?;
    }
    // Neither the switch nor a write that it shuts out settles: cells stay, earlier calls are taken.
    let (before, later) = (chip.clone(), start + micros(8_000));
    done(&mut chip, Ask::WriteRegister(FENR, 0), later)?;
    done(&mut chip, Ask::WriteRegister(FLMCR1, 0), later)?;
    holds("array stays", chip.array == before.array)?;
    holds("charges stay", chip.charges == before.charges)?;
    refused(&mut chip, Ask::Reset, start, 7)?;
    chip.events.resize(129, 0);
    taken(&chip, Ask::Reset, start)
}

pub fn output_room() -> Check {
    let mut chip = fresh(0xff)?;
    for room in [0, ARRAY_BYTES - 1] {
        refused(&mut chip, Ask::Image(room), 0, 8)?;
        let mut out = vec![MARK_BYTE; room];
        same(("image", room), chip.image(&mut out, 0), 8)?;
        holds("output stays", out.iter().all(|b| *b == MARK_BYTE))?;
    }
    taken(&chip, Ask::Image(ARRAY_BYTES), 0)
}

pub fn words_past_count() -> Check {
    let (chip, words) = exposed(micros(3000))?;
    same("words", &chip.events[..words.len()], &words[..])?;
    holds("rest", chip.events[words.len()..].iter().all(|word| *word == MARK))
}

pub fn output_past_image() -> Check {
    let chip = made(&mixed())?;
    let mut out = vec![MARK_BYTE; ARRAY_BYTES + 100];
    same("flash_image", chip.image(&mut out, 0), 0)?;
    holds("image", out[..ARRAY_BYTES] == mixed())?;
    holds("rest", out[ARRAY_BYTES..].iter().all(|byte| *byte == MARK_BYTE))
}
