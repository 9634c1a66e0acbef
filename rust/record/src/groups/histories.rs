//! Whole histories as lists of calls with their times: the place for a generator's.
use crate::call::{Call, Firmware, History};
use crate::list::List;
use crate::moves::*;

/// A box's life in short: a page is written, checked, wiped with its block, checked, and looked at after a power loss.
fn written_and_wiped() -> History {
    let mut calls = Vec::new();
    let mut now = 0;
    let mut then = |wait, call| {
        now += micros(wait);
        calls.push((call, now));
    };
    let control = |value| Call::WriteRegister(FLMCR1, value);
    then(10, Call::WriteRegister(FENR, 0x80));
    then(1, control(SWE));
    for (i, byte) in b"hunter2".iter().enumerate() {
        then(2, Call::Write8(0x0a00 + i as u16, *byte));
    }
    then(1, control(SWE | PSU));
    then(50, control(SWE | PSU | P));
    then(7000, control(SWE | PSU));
    then(5, control(SWE));
    then(5, control(SWE | PV));
    then(4, Call::Write8(0x0a00, 0xff));
    then(2, Call::Read16(0x0a00));
    then(1, control(SWE));
    then(2, control(0));
    then(100, Call::Read16(0x0a00));
    then(1_000_000, control(SWE));
    then(1, Call::WriteRegister(EBR1, 4));
    then(1, control(SWE | ESU));
    then(100, control(SWE | ESU | E));
    then(10_000, control(SWE | ESU));
    then(10, control(SWE));
    then(10, control(SWE | EV));
    then(20, Call::Write8(0x0a00, 0xff));
    then(2, Call::Read16(0x0a00));
    then(1, control(0));
    then(100, Call::Read16(0x0a00));
    then(5, Call::PowerOff);
    then(1000, Call::Environment(0, true, true));
    then(20, Call::Read16(0x0a00));
    History { firmware: Firmware::filled(0xff), calls }
}

/// Each is a group by itself. Histories of a generator go in here, as a group of many or one for each.
fn groups() -> Vec<(&'static str, Vec<History>)> {
    vec![("a page written and wiped", vec![written_and_wiped()])]
}

pub fn histories(list: &mut List) {
    for (name, histories) in groups() {
        list.group(name);
        for history in &histories {
            list.history(history);
        }
    }
}
