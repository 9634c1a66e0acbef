//! Modes, module and oscillator.
use crate::call::{Call, Firmware};
use crate::list::List;
use crate::moves::*;

/// Modes 0 to 5 with module and oscillator on or off: 24 environments.
fn environment(n: u8) -> Call {
    Call::Environment(n / 4, n & 2 == 0, n & 1 == 0)
}

/// Each environment after each, itself too: a cycle with every pair once.
fn every_pair() -> Vec<u8> {
    let mut cycle = Vec::new();
    for a in 0..24 {
        cycle.push(a);
        for b in a + 1..24 {
            cycle.extend([a, b]);
        }
    }
    cycle.push(0);
    cycle
}

pub fn changes(list: &mut List) {
    list.group("supply: every environment after every other");
    list.fresh(Firmware::noise(50));
    for n in every_pair() {
        list.wait(7);
        list.call(environment(n));
    }
}

/// With power-down disabled Subactive is Normal; SWE, a block and a sense are there to be cleared or kept.
pub fn changes_power_down(list: &mut List) {
    list.group("supply: every environment, power-down disabled, bits to clear");
    list.fresh(Firmware::noise(51));
    list.write(FENR, 0x80);
    list.write(FLPWCR, 0x80);
    for (n, turn) in every_pair().into_iter().zip(0u32..) {
        list.wait(7);
        if turn % 3 == 0 {
            list.control(SWE | PV);
            list.write(EBR1, 4);
        }
        if turn % 5 == 0 {
            list.data(0x1000, 0);
        }
        list.call(environment(n));
    }
}

fn in_pulse(list: &mut List, program: bool, power_down: u8) {
    for n in 0..24 {
        list.fresh(Firmware::noise(52));
        list.enable();
        list.write(FLPWCR, power_down);
        if program {
            list.program(&[(0x8080, 0x00), (0x8081, 0x00)]);
        } else {
            list.erase(2);
        }
        list.wait(if program { 2000 } else { 45_000 });
        list.call(environment(n));
        list.wait(400);
        list.call(Call::Read16(0x8080));
        // Back, and where the pulse still stands it goes on after the waits.
        list.call(Call::Environment(0, true, true));
        list.wait(60);
        list.settle();
        list.wait(45_000);
        list.settle();
    }
}

pub fn in_program(list: &mut List) {
    list.group("supply: every environment in a program pulse");
    in_pulse(list, true, 0);
}

pub fn in_program_power_down(list: &mut List) {
    list.group("supply: the same in a program pulse, power-down disabled");
    in_pulse(list, true, 0x80);
}

pub fn in_erase(list: &mut List) {
    list.group("supply: every environment in an erase pulse");
    in_pulse(list, false, 0);
}

/// Ready to the unit after a supply comes back, and the oscillator's three waits.
pub fn waits(list: &mut List) {
    list.group("supply: waits to the unit");
    for mode in [1, 3, 4, 5] {
        list.fresh(Firmware::noise(53));
        list.call(Call::Environment(mode, true, true));
        list.call(Call::Read8(0x1111));
        list.wait(50);
        list.call(Call::Environment(0, true, true));
        let back = list.now;
        for units in [0, micros(20) - 1, micros(20), micros(20) + 1] {
            list.now = back + units;
            list.call(Call::Read8(0x1111));
            list.call(Call::Read16(0xbffe));
        }
    }
    list.fresh(Firmware::filled(0xff));
    list.enable();
    list.data(0x200, 0);
    list.control(SWE | PSU);
    list.call(Call::Environment(0, true, false));
    list.wait(10);
    list.control(SWE | PSU | P);
    list.wait(100);
    list.call(Call::Environment(0, true, true));
    let back = list.now;
    for units in [micros(50), micros(50) + 1, micros(51)] {
        list.now = back + units;
        list.look(0x200, 0, list.now);
        list.settle();
    }
    list.call(Call::Environment(0, true, false));
    list.wait(1000);
    list.settle();
    list.call(Call::Environment(2, true, true));
    list.wait(60);
    list.settle();
    list.control(SWE | PSU);
}
