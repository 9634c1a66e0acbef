//! The checks, and the moves that they share. Numbers are those of document 01.
mod looking;
mod pulses;
mod refusals;
mod room;
mod rounds;
mod snapshots;

use crate::chip::{Ask, Chip, Reply, ARRAY_BYTES};
pub use doqtarbu::register::*;
pub use doqtarbu::FULL;
use std::fmt::Debug;

pub type Check = Result<(), String>;
type Named = (&'static str, fn() -> Check);

pub const ALL: &[Named] = &[
    ("firmware_of_another_length_is_1", refusals::firmware_length),
    ("lent_memory_of_another_length_is_2", refusals::lent_lengths),
    ("spoilt_record_is_3", refusals::spoilt_records),
    ("address_bit_and_mode_past_the_end_are_4", refusals::places),
    ("last_second_is_5", refusals::last_second),
    ("before_the_last_settling_is_6", refusals::before_settling),
    ("k_words_are_7_and_one_more_is_taken", room::event_room),
    ("no_words_do_where_nothing_settles", room::event_room_unneeded),
    ("short_output_is_8", room::output_room),
    ("first_failing_line_wins", refusals::order),
    ("worked_e_programs_to_full", pulses::worked_e),
    ("worked_f_erases_full_to_1_and_0", pulses::worked_f),
    ("worked_g_erase_register", pulses::worked_g),
    ("worked_h_byte_then_completed", pulses::worked_h),
    ("pulses_end_completed_or_interrupted", pulses::endings),
    ("words_past_the_count_stay", room::words_past_count),
    ("looks_agree_under_a_program_pulse", looking::program_pulse),
    ("looks_agree_under_an_erase_pulse", looking::erase_pulse),
    ("output_past_the_image_stays", room::output_past_image),
    ("equal_states_have_equal_bytes", looking::equal_states),
    ("program_200_us_and_verify", rounds::short_pulse),
    ("waits_end_to_the_unit", rounds::waits),
    ("program_erase_and_verify_the_whole_chip", rounds::whole_chip),
    ("snapshot_holds_the_state", snapshots::holds_the_state),
    ("snapshot_restores_the_state", snapshots::restores),
    ("restored_chip_answers_as_the_original", snapshots::answers_alike),
    ("every_damaged_field_has_its_number", snapshots::damaged_fields),
    ("every_charge_over_full_is_10", snapshots::damaged_charges),
    ("snapshot_cut_anywhere_is_9", snapshots::cuts),
    ("first_damage_in_reading_order_wins", snapshots::two_damages),
    ("bytes_left_over_are_11", snapshots::left_over),
    ("snapshot_refusals_in_their_order", snapshots::order),
    ("snapshot_output_room", snapshots::room),
    ("validate_is_the_twelfth_line", snapshots::validate),
];

pub const PAGE: u16 = 128;

/// The erase register's blocks: its value, the first address and the number of bytes.
pub const BLOCKS: [(u8, u16, u16); 6] = [
    (1, 0, 0x400),
    (2, 0x400, 0x400),
    (4, 0x800, 0x400),
    (8, 0xc00, 0x400),
    (16, 0x1000, 0x7000),
    (32, 0x8000, 0x4000),
];

pub const fn micros(n: u64) -> u128 {
    ((n as u128) << 64) / 1_000_000
}

pub fn byte_word(address: u16, value: u8) -> u64 {
    1 << 32 | u64::from(address) << 16 | u64::from(value)
}

pub fn completed(address: u16, length: u16) -> u64 {
    2 << 32 | u64::from(address) << 16 | u64::from(length)
}

pub fn interrupted(address: u16, length: u16) -> u64 {
    3 << 32 | u64::from(address) << 16 | u64::from(length)
}

/// The byte that eight charges sense: normally (0), or under `PV` or `EV`.
pub fn sensed(address: u16, charges: &[u64], mode: u8) -> u8 {
    let mut byte = 0;
    for (bit, q) in charges.iter().enumerate() {
        let i = usize::from(address) * 8 + bit;
        let c = (((13 * i) ^ (i / 16)) % 16) as u128;
        let (q, full) = (u128::from(*q), u128::from(FULL));
        let one = match mode {
            PV => q < full * (16 + c) / 31,
            EV => q <= full * c / 256,
            _ => q < full * (16 + c) / 62,
        };
        byte |= u8::from(one) << bit;
    }
    byte
}

pub fn same<T: PartialEq + Debug>(what: impl Debug, got: T, want: T) -> Check {
    if got == want {
        return Ok(());
    }
    Err(format!("{what:?}: got {got:?}, not {want:?}"))
}

pub fn holds(what: impl Debug, fact: bool) -> Check {
    if fact {
        return Ok(());
    }
    Err(format!("{what:?}: does not hold"))
}

pub fn made(firmware: &[u8]) -> Result<Chip, String> {
    Chip::new(firmware).map_err(|number| format!("flash_new: refused by {number}"))
}

pub fn fresh(byte: u8) -> Result<Chip, String> {
    made(&[byte; ARRAY_BYTES])
}

/// Demands an answer; gives its output, or 0 where there is none, and its event words.
pub fn done(chip: &mut Chip, ask: Ask, at: u128) -> Result<(u64, Vec<u64>), String> {
    let reply = chip.ask(ask, at);
    let words = usize::try_from(reply.count).ok().and_then(|n| chip.events.get(..n));
    match words {
        Some(words) if reply.refusal == 0 => Ok((reply.value.unwrap_or(0), words.to_vec())),
        _ => Err(format!("{ask:?}: {reply:?}")),
    }
}

/// Demands this output.
pub fn answers(chip: &mut Chip, ask: Ask, at: u128, want: u64) -> Check {
    same(ask, done(chip, ask, at)?.0, want)
}

/// Demands just these event words.
pub fn gives(chip: &mut Chip, ask: Ask, at: u128, want: &[u64]) -> Check {
    same(ask, &done(chip, ask, at)?.1[..], want)
}

/// Demands a refusal by the number, and that nothing lent changes by it.
pub fn refused(chip: &mut Chip, ask: Ask, at: u128, number: u32) -> Check {
    let before = chip.clone();
    let want = Reply { refusal: number, count: 0, value: None };
    same(ask, chip.ask(ask, at), want)?;
    unchanged(chip, &before).map_err(|what| format!("{ask:?}: {what}"))
}

pub fn unchanged(chip: &Chip, before: &Chip) -> Check {
    holds("record stays", chip.record == before.record)?;
    holds("array stays", chip.array == before.array)?;
    holds("charges stay", chip.charges == before.charges)?;
    holds("events stay", chip.events == before.events)
}

pub fn control(chip: &mut Chip, value: u8, at: u128) -> Result<Vec<u64>, String> {
    Ok(done(chip, Ask::WriteRegister(FLMCR1, value), at)?.1)
}

/// Enables the registers and sets SWE; gives the instant from which SWE is ready.
pub fn enable(chip: &mut Chip, at: u128) -> Result<u128, String> {
    done(chip, Ask::WriteRegister(FENR, 0x80), at)?;
    control(chip, SWE, at)?;
    Ok(at + micros(1))
}

/// Latches the bytes and opens a program pulse over their page; gives the instant from which it
/// charges. P is set long before it, so that a setup time that charges would show.
pub fn program(chip: &mut Chip, bytes: &[(u16, u8)], at: u128) -> Result<u128, String> {
    let at = enable(chip, at)?;
    for (address, value) in bytes {
        done(chip, Ask::Write8(*address, *value), at)?;
    }
    control(chip, SWE | PSU, at)?;
    control(chip, SWE | PSU | P, at)?;
    Ok(at + micros(50))
}

/// Opens an erase pulse over what the erase register's value selects, likewise.
pub fn erase(chip: &mut Chip, value: u8, at: u128) -> Result<u128, String> {
    let at = enable(chip, at)?;
    done(chip, Ask::WriteRegister(EBR1, value), at)?;
    control(chip, SWE | ESU, at)?;
    control(chip, SWE | ESU | E, at)?;
    Ok(at + micros(100))
}

/// All bytes that the cells hold at an instant.
pub fn image(chip: &Chip, at: u128) -> Result<Vec<u8>, String> {
    let mut out = vec![0; ARRAY_BYTES];
    same("flash_image", chip.image(&mut out, at), 0)?;
    Ok(out)
}
