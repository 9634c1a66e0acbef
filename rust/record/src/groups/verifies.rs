//! Verify sensing.
use crate::call::{Call, Firmware};
use crate::list::List;
use crate::moves::*;

/// The wait from PV or EV to verify-ready.
fn verify_wait(mode: u8) -> u64 {
    if mode == EV {
        20
    } else {
        4
    }
}

/// Page 80 hex is programmed so far that some classes pass program verify, block 1 erased so far that some pass erase verify.
fn worn(list: &mut List) {
    list.fresh(Firmware::noise(40));
    list.enable();
    list.program(&[(0x90, 0x00), (0x91, 0x0f), (0x92, 0xa5), (0x93, 0xff), (0xff, 0x00)]);
    list.wait(5000);
    list.control(SWE | PSU);
    list.control(SWE);
    list.wait(5);
    list.erase(2);
    list.wait(97_500);
    list.control(SWE | ESU);
    list.control(SWE);
    list.wait(10);
}

/// Four bytes in what the mode is to verify.
fn home(mode: u8) -> u16 {
    if mode == EV {
        0x490
    } else {
        0x90
    }
}

fn senses(list: &mut List, mode: u8) {
    let (wait, home) = (verify_wait(mode), home(mode));
    worn(list);
    // A data write at once is due when verify is ready; reads before it find what was sensed last.
    list.control(SWE | mode);
    let set = list.now;
    list.data(home + 1, 0xff);
    for units in [0, micros(wait) - 1, micros(wait), micros(wait)] {
        list.now = set + units;
        for lane in 0..4 {
            list.call(Call::Read8(home + lane));
        }
    }
    // Then each is due 2 µs later; the value that is written plays no part.
    let others = [(0x93, 0x00), (0x493, 0xff), (0xff, 0x5a), (0x7fe, 0), (0x2000, 0), (0xbffc, 0)];
    for (address, value) in others {
        list.wait(3);
        list.data(address, value);
        let written = list.now;
        for units in [1, micros(2) - 1, micros(2)] {
            list.now = written + units;
            list.call(Call::Read16(address & !3));
            list.call(Call::Read16((address & !3) | 2));
        }
    }
    // A second data write takes the place of the first.
    list.wait(5);
    list.data(home, 0);
    list.wait(1);
    list.data(home + 0x24, 0);
    let written = list.now;
    for units in [micros(1), micros(2) - 1, micros(2)] {
        list.now = written + units;
        list.call(Call::Read16(home));
    }
    // Dropped by another mode, and by the same one set again.
    for other in [SWE, SWE | (PV ^ EV ^ mode), SWE | PV | EV, SWE | mode | P, SWE | mode | E, 0] {
        list.control(SWE | mode);
        list.wait(30);
        list.data(home + 4, 0);
        list.wait(1);
        list.control(other);
        list.wait(1);
        list.control(SWE | mode);
        list.wait(30);
        list.call(Call::Read8(home + 4));
        list.control(SWE);
        list.wait(5);
    }
    // Kept where only a setup bit changes: the low four bits are the mode's alone.
    list.control(SWE | mode);
    list.wait(30);
    list.data(home + 8, 0);
    list.control(SWE | mode | PSU);
    list.control(SWE | mode | ESU);
    list.wait(2);
    list.call(Call::Read8(home + 8));
    list.call(Call::Read8(home + 9));
    // Due after recovery, which the fallen setup bit raised.
    list.control(SWE | mode);
    list.data(home, 0);
    let fallen = list.now;
    for units in [micros(9), micros(10) - 1, micros(10)] {
        list.now = fallen + units;
        list.call(Call::Read8(home + 1));
    }
    // Protection, Sleep, reset and power-off under a pending sense.
    for call in [Call::Protect, Call::Environment(2, true, true), Call::Reset, Call::PowerOff] {
        list.control(SWE | mode);
        list.wait(30);
        list.data(home + 16, 0);
        list.wait(1);
        list.call(call);
        list.wait(1);
        list.call(Call::Read8(home + 16));
        list.wait(200);
        list.call(Call::Environment(0, true, true));
        list.wait(20);
        list.enable();
    }
}

pub fn program_verify(list: &mut List) {
    list.group("verify: program verify senses");
    senses(list, PV);
}

pub fn erase_verify(list: &mut List) {
    list.group("verify: erase verify senses");
    senses(list, EV);
}

/// Data writes that start no sense: too early, without SWE, in another mode, under another supply. Something was sensed before, so that
/// a read which finds it shows.
pub fn not_started(list: &mut List) {
    list.group("verify: data writes that start no sense");
    worn(list);
    list.control(SWE | PV);
    list.wait(4);
    list.data(0x90, 0);
    list.wait(2);
    list.call(Call::Read16(0x90));
    for control in [PV, EV, SWE | PV | EV, SWE | PV | P, SWE | EV | E, SWE | 15, SWE] {
        list.control(control);
        list.wait(30);
        list.data(0x94, 0);
        list.wait(5);
        list.call(Call::Read16(0x94));
    }
    list.control(0);
    list.wait(200);
    list.control(SWE | PV);
    list.data(0x94, 0);
    list.wait_units(micros(1) - 1);
    list.data(0x94, 0);
    list.wait(10);
    list.call(Call::Read16(0x94));
    list.call(Call::Environment(0, true, false));
    list.data(0x94, 0);
    list.wait(5);
    list.call(Call::Read16(0x94));
    list.call(Call::Environment(0, true, true));
    list.data(0x94, 0);
    list.wait(1);
    list.data(0x94, 0);
    list.wait(5);
    list.call(Call::Read16(0x94));
    // Control can be set while the supply is Stopped, and reads are FF all the same.
    list.call(Call::Environment(4, true, true));
    list.control(SWE | PV);
    list.wait(30);
    list.data(0x98, 0);
    list.wait(5);
    list.call(Call::Read16(0x94));
    list.call(Call::Environment(0, true, true));
    list.wait(20);
    list.call(Call::Read16(0x94));
}

/// A sense under Reduced supply: Subactive with power-down disabled is Normal, and asked for again without is Reduced, control kept.
pub fn reduced(list: &mut List) {
    list.group("verify: supply Reduced while a sense is pending");
    worn(list);
    list.write(FLPWCR, 0x80);
    list.call(Call::Environment(1, true, true));
    list.write(FENR, 0x80);
    for mode in [PV, EV] {
        list.control(SWE);
        list.wait(20);
        list.control(SWE | mode);
        list.wait(30);
        let home = home(mode);
        list.data(home, 0);
        list.write(FLPWCR, 0);
        list.call(Call::Environment(1, true, true));
        let written = list.now;
        for units in [micros(2) - 1, micros(2)] {
            list.now = written + units;
            list.call(Call::Read16(home));
        }
        list.data(home + 4, 0);
        list.wait(5);
        list.call(Call::Read16(home + 4));
        list.write(FLPWCR, 0x80);
        list.call(Call::Environment(1, true, true));
        list.data(home + 12, 0);
        let written = list.now;
        for units in [micros(20) - 1, micros(20)] {
            list.now = written + units;
            list.call(Call::Read16(home + 12));
        }
    }
}
