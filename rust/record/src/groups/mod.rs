//! What is recorded, group by group.
mod damages;
mod erases;
mod histories;
mod programs;
mod reads;
mod refusals;
mod registers;
mod snapshots;
mod supplies;
mod verifies;

use crate::list::List;

pub const ALL: &[fn(&mut List)] = &[
    refusals::firmware,
    registers::control_values,
    registers::control_falls,
    registers::control_in_program,
    registers::control_in_erase,
    registers::erase_values,
    registers::others,
    registers::enable_in_pulse,
    programs::worked_h,
    programs::limits_of_classes,
    programs::page_by_short_pulses,
    programs::pages_and_latches,
    programs::waits,
    programs::endings,
    erases::block_0,
    erases::block_1,
    erases::block_2,
    erases::block_3,
    erases::block_4,
    erases::block_5,
    erases::nothing_selected,
    erases::retargeted,
    erases::waits,
    erases::turns,
    verifies::program_verify,
    verifies::erase_verify,
    verifies::not_started,
    verifies::reduced,
    supplies::changes,
    supplies::changes_power_down,
    supplies::in_program,
    supplies::in_program_power_down,
    supplies::in_erase,
    supplies::waits,
    reads::reads,
    reads::protection,
    reads::protection_early,
    reads::resets,
    reads::looks,
    reads::last_instant,
    snapshots::page_counts,
    snapshots::pages_224,
    snapshots::pages_384,
    damages::damaged_fields,
    damages::repeated_pages,
    damages::cuts,
    damages::two_damages,
    damages::validity,
    snapshots::only_snapshots,
    snapshots::times,
    snapshots::limits_of_senses,
    histories::histories,
];
