//! Reads, protection, reset, power-off and looks.
use crate::call::{Call, Firmware};
use crate::list::List;
use crate::moves::*;

/// Served or FF: under each bit of control, and at the edges of the waits. Sensed bytes are the verify groups'.
pub fn reads(list: &mut List) {
    list.group("reads in every state");
    list.fresh(Firmware::noise(60));
    for address in [0, 1, 0x7f, 0x80, 0x1000, 0x8000, 0xbffd, 0xbffe, 0xbfff] {
        list.call(Call::Read8(address));
        if address < 0xbfff {
            list.call(Call::Read16(address));
        }
        list.wait(1);
    }
    list.enable();
    list.call(Call::Read16(0x1234));
    for control in [ESU, PSU, EV, PV, E, P, PV | EV, EV | E, 0x3f] {
        list.control(SWE | control);
        list.wait(30);
        list.call(Call::Read8(0x1233));
        list.call(Call::Read16(0x1234));
        list.control(SWE);
        list.wait(30);
        list.call(Call::Read16(0x1233));
    }
    // Each falling bit's recovery, to the unit.
    for (bit, wait) in [(P, 5), (PSU, 5), (E, 10), (ESU, 10), (PV, 2), (EV, 4), (0, 100)] {
        list.control(SWE | bit);
        list.wait(200);
        list.control(if bit == 0 { 0 } else { SWE });
        let fallen = list.now;
        for units in [0, micros(wait) - 1, micros(wait)] {
            list.now = fallen + units;
            list.call(Call::Read8(0x4321));
            list.call(Call::Read16(0x4322));
        }
    }
}

/// By a byte read, a word read and from outside; what a pulse then does, and what clears the error.
pub fn protection(list: &mut List) {
    list.group("protection");
    for program in [true, false] {
        for call in [Call::Read8(0x180), Call::Read16(0x180), Call::Read16(0x4000), Call::Protect] {
            list.fresh(Firmware::noise(61));
            list.call(call);
            list.enable();
            list.call(call);
            if program {
                list.program(&[(0x180, 0x00), (0x1ff, 0x18)]);
            } else {
                list.erase(1);
            }
            let tripped = if program { 3000 } else { 50_000 };
            list.wait(tripped);
            list.call(call);
            let at = list.now;
            for wait in [5, 10] {
                list.now = at + micros(wait) - 1;
                list.call(call);
                list.wait_units(1);
                list.call(call);
            }
            // The error stays over control writes and keeps pulses shut.
            list.write(FLMCR2, 0);
            list.control(SWE);
            list.wait(20);
            list.call(Call::Read16(0x180));
            if program {
                list.program(&[(0x180, 0x00)]);
            } else {
                list.erase(1);
            }
            list.wait(tripped);
            list.call(call);
            list.control(SWE);
            list.call(Call::Reset);
            list.call(Call::Read16(0x180));
        }
    }
}

/// Protection while the pulse does not charge yet, and where its range is empty.
pub fn protection_early(list: &mut List) {
    list.group("protection before a pulse charges");
    for call in [Call::Read8(0xc00), Call::Read16(0xc00), Call::Protect] {
        list.fresh(Firmware::noise(62));
        list.enable();
        list.program(&[(0xc00, 0)]);
        list.now -= micros(20);
        list.call(call);
        list.call(Call::Reset);
        list.enable();
        list.erase(64);
        list.wait(1000);
        list.call(call);
        list.call(Call::Reset);
        list.enable();
        list.erase(8);
        list.call(call);
        // SWE's fall raised recovery further than protection does.
        list.call(Call::Reset);
        list.enable();
        list.control(0);
        list.control(SWE | PSU | P);
        list.wait(60);
        list.call(call);
    }
}

pub fn resets(list: &mut List) {
    list.group("reset and power-off");
    for call in [Call::Reset, Call::PowerOff] {
        list.fresh(Firmware::noise(63));
        list.call(call);
        list.call(Call::Read8(0x2222));
        list.wait(1);
        list.call(Call::Environment(0, true, true));
        list.wait_units(micros(20) - 1);
        list.call(Call::Read8(0x2222));
        list.wait_units(1);
        list.call(Call::Read8(0x2222));
        list.enable();
        list.write(FLPWCR, 0x80);
        list.program(&[(0x2200, 0x00), (0x2222, 0x81)]);
        list.wait(2600);
        list.call(call);
        list.call(Call::Read8(0x2222));
        list.wait(1);
        list.call(call);
        list.call(Call::Environment(1, true, true));
        list.wait(30);
        list.call(Call::Read16(0x2222));
        list.call(Call::Environment(0, true, true));
        list.wait(30);
        list.enable();
        list.control(SWE | PV);
        list.wait(5);
        list.data(0x2220, 0);
        list.wait(5);
        list.call(Call::Read8(0x2222));
        list.call(call);
        list.look(0x2222, 0, list.now);
    }
}

/// Looks at many times of one open pulse keep nothing: what is seen far ahead is not there before.
pub fn looks(list: &mut List) {
    list.group("looks under pulses");
    list.fresh(Firmware::filled(0xff));
    list.look(0, 0, 0);
    list.look(0xbfff, 7, micros(1));
    list.enable();
    list.program(&[(0x500, 0x00), (0x501, 0x7e), (0x57f, 0xef)]);
    let start = list.now;
    let whole = 129_127_208_515_966_861;
    for units in [whole, 0, 1, whole / 2, whole / 3, whole * 2, 33_323_150_584_765_642, whole - 1] {
        for (address, bit) in [(0x500, 0), (0x501, 0), (0x57f, 4), (0x4ff, 0), (0x580, 3)] {
            list.look(address, bit, start + units);
        }
    }
    list.now = start + whole / 2;
    list.settle();
    list.look(0x500, 0, list.now);
    list.look(0x500, 0, list.now + whole);
    list.control(SWE | PSU);

    list.fresh(Firmware::noise(64));
    list.enable();
    list.erase(2);
    let start = list.now;
    let whole = 1_844_674_407_370_955_158;
    for units in [whole, 0, 1, whole / 2, whole / 4 * 3, whole * 3, whole - 1] {
        for (address, bit) in [(0x400, 0), (0x433, 5), (0x7ff, 7), (0x3ff, 1), (0x800, 2)] {
            list.look(address, bit, start + units);
        }
    }
    list.now = start + whole / 4 * 3;
    list.control(SWE | ESU);
    list.look(0x433, 5, list.now + whole);
}

/// The last instant that document 01 accepts: waits pass it, and the original still has room for them.
pub fn last_instant(list: &mut List) {
    list.group("the last accepted instant");
    let last = (u128::from(u64::MAX) << 64) - 1;
    list.fresh(Firmware::noise(65));
    list.now = last - micros(1_000_000);
    list.enable();
    list.program(&[(0x680, 0x00)]);
    list.now = last;
    list.settle();
    list.look(0x680, 0, last);
    list.control(SWE | PSU);
    list.control(SWE);
    list.call(Call::Read8(0x680));
    list.erase(1);
    list.now = last;
    list.control(SWE | EV);
    list.data(0x680, 0);
    list.call(Call::Environment(0, true, false));
    list.call(Call::Environment(1, true, true));
    list.call(Call::Environment(0, true, true));
    list.call(Call::Protect);
    list.call(Call::Reset);
    list.call(Call::PowerOff);
    list.restore();
}
