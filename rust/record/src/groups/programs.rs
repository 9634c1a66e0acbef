//! Program pulses.
use crate::call::{Call, Firmware};
use crate::list::List;
use crate::moves::*;
use crate::snapshot::limits;

/// Raw units until programming from 0 reaches the limit at which a class no longer senses 1.
fn reaches(limit: u64) -> u128 {
    u128::from(limit).div_ceil(100)
}

pub fn worked_h(list: &mut List) {
    list.group("program: worked instant (h) and one unit to either side");
    for units in [33_323_150_584_765_641, 33_323_150_584_765_642, 33_323_150_584_765_643, 0, 1] {
        list.fresh(Firmware::filled(0xff));
        list.enable();
        list.program(&[(0x80, 0xfe)]);
        list.look(0x80, 0, list.now + units);
        list.wait_units(units);
        list.control(SWE | PSU);
        list.wait(10);
        list.control(0);
    }
}

/// One pulse over a page latched 0, settled at each class's limit and one unit before.
pub fn limits_of_classes(list: &mut List) {
    list.group("program: every class at its normal limit");
    for page in [0x0000, 0x2a80, 0xbf80] {
        list.fresh(Firmware::filled(0xff));
        list.now = micros(5_000_000) + 12_345;
        list.enable();
        let latch: Vec<(u16, u8)> = (0..128).step_by(5).map(|i| (page + i, 0)).collect();
        list.program(&latch);
        let start = list.now;
        for class in 0..16 {
            let end = start + reaches(limits(class)[0]);
            for now in [end - 1, end] {
                list.now = now;
                list.settle();
            }
            list.look(page + class as u16, 5, end);
        }
        // Full, and no more.
        for units in [129_127_208_515_966_860, 129_127_208_515_966_861, 129_127_208_515_966_862] {
            list.now = start + units;
            list.settle();
            list.look(page, 0, list.now);
        }
        list.control(SWE | PSU);
    }
}

/// A page written as firmware does it: all bytes latched, short pulses, each verified.
pub fn page_by_short_pulses(list: &mut List) {
    list.group("program: a page by short pulses, each verified");
    list.fresh(Firmware::filled(0xff));
    list.enable();
    let data = Firmware::noise(99).bytes();
    for i in 0..128u16 {
        list.data(0x4d00 + i, data[usize::from(i)]);
    }
    for (pulse, n) in [30, 30, 200, 200, 1000, 3000, 3000].into_iter().zip(0u16..) {
        list.control(SWE | PSU);
        list.wait(50);
        list.control(SWE | PSU | P);
        list.wait(pulse);
        list.control(SWE | PSU);
        list.wait(5);
        list.control(SWE);
        list.wait(5);
        list.control(SWE | PV);
        list.wait(4);
        for address in [0x4d00 + 4 * n, 0x4d7c - 4 * n] {
            list.data(address, 0xff);
            list.wait(2);
            list.call(Call::Read16(address));
            list.call(Call::Read16(address + 2));
        }
        list.control(SWE);
        list.wait(2);
    }
    list.control(0);
    list.wait(100);
    for address in [0x4cff, 0x4d00, 0x4d01, 0x4d7f, 0x4d80] {
        list.call(Call::Read8(address));
    }
}

/// Several pages one after the other, the latch kept from page to page; over noise, so that bits are programmed again.
pub fn pages_and_latches(list: &mut List) {
    list.group("program: several pages and latches");
    list.fresh(Firmware::noise(6));
    list.enable();
    let latches: [&[u8]; 5] = [&[0x00], &[0xaa, 0x55], &[0xff], &[0xfe, 0xfd, 0xfb, 0xf7], &[0x0f]];
    for (latch, page) in latches.into_iter().zip([0x8000, 0x0f80, 0x0000, 0xbf80, 0x8000]) {
        let bytes: Vec<(u16, u8)> =
            (0..16).map(|i| (page + 8 * i, latch[usize::from(i) % latch.len()])).collect();
        list.program(&bytes);
        list.wait(2100);
        list.settle();
        list.look(page + 8, 1, list.now + micros(100));
        list.wait(1700);
        list.control(SWE | PSU);
        list.wait(5);
        list.control(SWE);
        list.wait(5);
    }
}

/// When a pulse starts to charge: its own ready time, SWE's, the supply's, and recovery, each to the unit.
pub fn waits(list: &mut List) {
    list.group("program: waits before a pulse charges");
    // PSU's 50 µs.
    for units in [0, 1, 2] {
        list.fresh(Firmware::filled(0xff));
        list.enable();
        list.program(&[(0x300, 0)]);
        list.wait_units(units);
        list.look(0x300, 0, list.now);
        list.settle();
        list.control(SWE | PSU);
    }
    // P late: only from there.
    list.fresh(Firmware::filled(0xff));
    list.enable();
    list.data(0x300, 0);
    list.control(SWE | PSU);
    list.wait(500);
    list.control(SWE | PSU | P);
    list.wait(400);
    list.look(0x300, 0, list.now);
    list.control(SWE | PSU);
    // Recovery of the last pulse stands in the way of the next, and of a new latch.
    list.control(SWE);
    let fallen = list.now;
    for units in [micros(5) - 1, micros(5)] {
        list.now = fallen + units;
        list.data(0x380, 0x3c);
    }
    list.control(SWE | PSU | P);
    list.wait(55);
    list.look(0x380, 1, list.now);
    list.settle();
    list.control(SWE | PSU);
    // SWE off and on again: 100 µs of recovery outlast PSU's wait.
    list.control(0);
    list.control(SWE);
    list.control(SWE | PSU | P);
    let risen = list.now;
    for units in [micros(99), micros(100) - 1, micros(100), micros(100) + 1, micros(101)] {
        list.now = risen + units;
        list.look(0x380, 1, list.now);
        list.settle();
    }
    // A latch before SWE is ready is lost.
    list.fresh(Firmware::filled(0xff));
    list.write(FENR, 0x80);
    list.control(SWE);
    for (units, address) in [(0, 0x400), (micros(1) - 1, 0x481), (micros(1), 0x502)] {
        list.now = units;
        list.data(address, 0x11);
    }
}

/// Each way to end a pulse, from the same start.
pub fn endings(list: &mut List) {
    list.group("program and erase: how pulses end");
    let ends = [
        Call::Reset,
        Call::PowerOff,
        Call::Protect,
        Call::Read8(0x80),
        Call::Read16(0x80),
        Call::Read8(0x9000),
        Call::Write8(0x80, 0),
        Call::Write8(0x1234, 0x56),
        Call::Environment(0, true, false),
        Call::Environment(0, false, true),
        Call::Environment(0, true, true),
        Call::Environment(2, true, true),
        Call::WriteRegister(FLMCR1, SWE),
        Call::WriteRegister(FLMCR1, 0),
        Call::WriteRegister(FLMCR1, SWE | PSU),
        Call::WriteRegister(FLMCR1, SWE | ESU),
        Call::WriteRegister(FLMCR1, SWE | PSU | ESU),
        Call::WriteRegister(FLMCR1, 0x80 | SWE | PSU),
        Call::WriteRegister(FLMCR1, SWE | PSU | PV),
        Call::WriteRegister(FLMCR1, SWE | PSU | P | E),
        Call::WriteRegister(FLMCR1, SWE | PSU | ESU | P),
        Call::WriteRegister(FLMCR2, 0xff),
        Call::WriteRegister(FLPWCR, 0x80),
        Call::WriteRegister(EBR1, 2),
        Call::WriteRegister(FENR, 0),
    ];
    for end in ends {
        for program in [true, false] {
            list.fresh(Firmware::noise(8));
            list.enable();
            if program {
                list.program(&[(0x80, 0x00), (0x81, 0x5a)]);
            } else {
                list.erase(1);
            }
            list.wait(2500);
            list.call(end);
            list.wait(3);
            list.call(Call::WriteRegister(FENR, 0x80));
            list.control(0);
        }
    }
}
