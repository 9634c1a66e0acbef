//! Register writes.
use crate::call::{Call, Firmware};
use crate::list::List;
use crate::moves::*;

/// Every value, from SWE alone and back.
pub fn control_values(list: &mut List) {
    list.group("control register: every value, from SWE alone");
    list.fresh(Firmware::noise(1));
    list.enable();
    for value in 0..=255 {
        list.wait(11);
        list.control(value);
        list.wait(7);
        list.control(SWE);
    }
}

/// Every bit falls where the value has it not; F020 drops bit 7, so half of the values do.
pub fn control_falls(list: &mut List) {
    list.group("control register: every value, from all bits set");
    list.fresh(Firmware::noise(2));
    list.enable();
    for value in 0..128 {
        list.wait(13);
        list.control(0x7f);
        list.wait(9);
        list.control(value);
    }
}

/// What completes a program pulse, what interrupts it and what lets it go on.
pub fn control_in_program(list: &mut List) {
    list.group("control register: every value, in a program pulse");
    list.fresh(Firmware::noise(3));
    list.enable();
    for value in 0..128 {
        list.control(SWE);
        list.wait(1);
        list.control(SWE | PSU | P);
        list.wait(60);
        list.control(value);
        list.wait(2);
    }
}

/// The same of an erase pulse.
pub fn control_in_erase(list: &mut List) {
    list.group("control register: every value, in an erase pulse");
    list.fresh(Firmware::filled(0xff));
    list.enable();
    for value in 0..128 {
        list.control(SWE);
        list.write(EBR1, 1);
        list.wait(1);
        list.control(SWE | ESU | E);
        list.wait(120);
        list.control(value);
        list.wait(2);
    }
}

pub fn erase_values(list: &mut List) {
    list.group("erase register: every value");
    list.fresh(Firmware::noise(4));
    list.enable();
    for value in 0..=255 {
        list.write(EBR1, value);
        list.wait(1);
    }
    for value in [1, 32, 64, 128] {
        list.write(EBR1, value);
        list.control(0);
        list.write(EBR1, value);
        list.control(SWE);
    }
}

const OTHERS: [u16; 14] = [
    0, 0x80, 0xbfff, 0xc000, 0xf01f, 0xf021, 0xf024, 0xf025, 0xf026, 0xf02a, 0xf02c, 0xf120,
    0xffff, 0x0020,
];

pub fn others(list: &mut List) {
    list.group("registers: other addresses, and not enabled");
    list.fresh(Firmware::noise(5));
    for address in [FLMCR1, FLMCR2, FLPWCR, EBR1] {
        list.write(address, 0xff);
        list.wait(1);
    }
    for value in [0x80, 0x7f, 0xff, 0x00, 0x81] {
        list.write(FENR, value);
        list.wait(1);
    }
    list.control(SWE);
    for value in [0x80, 0x7f, 0xff, 0x00, 0x81] {
        list.write(FLPWCR, value);
        list.write(FLMCR2, value);
        list.wait(1);
    }
    list.write(EBR1, 8);
    for address in OTHERS {
        list.write(address, 0xff);
        list.register(address);
        list.wait(1);
    }
    // Not enabled: all read 0 and keep what they have.
    list.write(FENR, 0);
    for address in [FLMCR1, FLMCR2, FLPWCR, EBR1, FENR, 0xf024] {
        list.write(address, 0x55);
        list.register(address);
        list.wait(1);
    }
    list.write(FENR, 0x80);
    for address in [FLMCR1, FLMCR2, FLPWCR, EBR1, FENR] {
        list.register(address);
    }
}

/// F02B neither settles nor ends a pulse; the others are ignored meanwhile, and the pulse goes on.
pub fn enable_in_pulse(list: &mut List) {
    list.group("enable register in a pulse");
    for (firmware, program) in [(0xff, true), (0x00, false)] {
        list.fresh(Firmware::filled(firmware));
        list.enable();
        if program {
            list.program(&[(0x100, 0x00), (0x17f, 0x0f)]);
        } else {
            list.erase(4);
        }
        list.wait(2000);
        list.write(FENR, 0);
        list.wait(500);
        list.control(0);
        list.write(EBR1, 1);
        list.data(0x200, 0);
        list.wait(1500);
        list.look(0x100, 3, list.now);
        list.write(FENR, 0x80);
        list.wait(60_000);
        list.look(0x900, 7, list.now + micros(10));
        list.write(FENR, 0x80);
        list.control(SWE | if program { PSU } else { ESU });
        list.call(Call::Read8(0x100));
        list.control(0);
        list.wait(100);
        list.call(Call::Read16(0x17e));
    }
}
