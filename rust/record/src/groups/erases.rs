//! Erase pulses.
use crate::call::{Call, Firmware};
use crate::list::List;
use crate::moves::*;
use crate::snapshot::{limits, FULL};

/// Raw units until erasing from FULL falls below the limit under which a class senses 1.
fn falls_below(limit: u64) -> u128 {
    u128::from((FULL - limit) / 7) + 1
}

/// From all 0, split over settles at the classes' limits and one unit before; then from noise.
fn block(list: &mut List, number: usize, classes: &[u128]) {
    let (value, first, end) = BLOCKS[number];
    list.group(&format!("erase: block {number}"));
    list.fresh(Firmware::filled(0x00));
    list.enable();
    list.erase(value);
    let start = list.now;
    for class in classes {
        let at = start + falls_below(limits(*class)[0]);
        for now in [at - 1, at] {
            list.now = now;
            list.settle();
        }
        list.look(end - 1 - *class as u16, 2, at);
    }
    // Worked instant (f): one unit before nothing is left, and then.
    for units in [1_844_674_407_370_955_157, 1_844_674_407_370_955_158, 1_844_674_407_370_955_159] {
        list.look(first, 0, start + units);
    }
    list.now = start + 1_844_674_407_370_955_158;
    list.control(SWE | ESU);
    list.look(first, 0, list.now);
    list.wait(10);
    list.control(0);

    list.fresh(Firmware::noise(20 + number as u32));
    list.now = micros(86_400_000_000) + 77;
    list.enable();
    list.erase(value);
    for millis in [1, 40, 12] {
        list.wait(1000 * millis);
        list.settle();
    }
    list.look(first + 0x80, 6, list.now + micros(30_000));
    list.look(end - 1, 0, list.now + micros(31_000));
    list.wait(9000);
    list.control(SWE);
    for address in [first, end - 1] {
        list.call(Call::Read8(address));
    }
}

const ALL_CLASSES: [u128; 16] = [15, 14, 13, 12, 11, 10, 9, 8, 7, 6, 5, 4, 3, 2, 1, 0];

pub fn block_0(list: &mut List) {
    block(list, 0, &ALL_CLASSES);
}

pub fn block_1(list: &mut List) {
    block(list, 1, &ALL_CLASSES);
}

pub fn block_2(list: &mut List) {
    block(list, 2, &ALL_CLASSES);
}

pub fn block_3(list: &mut List) {
    block(list, 3, &ALL_CLASSES);
}

/// Its snapshots have 224 pages, so few rows have to do.
pub fn block_4(list: &mut List) {
    block(list, 4, &[15, 8, 0]);
}

pub fn block_5(list: &mut List) {
    block(list, 5, &[15, 9, 4, 0]);
}

pub fn nothing_selected(list: &mut List) {
    list.group("erase: values that select nothing");
    for value in [0, 3, 0x18, 64, 128, 0xff] {
        list.fresh(Firmware::filled(0));
        list.enable();
        list.erase(value);
        list.wait(80_000);
        list.settle();
        list.look(0, 0, list.now + micros(1000));
        list.wait(10_000);
        list.control(SWE | ESU);
    }
}

/// The erase register written in a pulse: the old block's pulse is interrupted, the new one charges from there.
pub fn retargeted(list: &mut List) {
    list.group("erase: another block in a pulse");
    list.fresh(Firmware::noise(30));
    list.enable();
    list.erase(1);
    for value in [2, 2, 0, 8, 3, 4, 128, 1] {
        list.wait(30_000);
        list.write(EBR1, value);
        list.look(0x0c00, 4, list.now + micros(20_000));
    }
    list.wait(30_000);
    list.control(SWE | ESU);
}

/// A pulse before ESU's 100 µs and exactly then, and one unit of exposure, which opens the pages and changes no byte.
pub fn waits(list: &mut List) {
    list.group("erase: waits before a pulse charges");
    for units in [0, 1, 2] {
        list.fresh(Firmware::filled(0));
        list.enable();
        list.erase(8);
        list.wait_units(units);
        list.look(0xc00, 0, list.now);
        list.settle();
        list.control(SWE | ESU);
        list.wait(10);
        list.control(SWE | ESU | E);
        list.wait(1);
        list.look(0xfff, 7, list.now);
        list.control(SWE | ESU);
    }
}

/// Programmed again while partly erased, and erased while partly programmed.
pub fn turns(list: &mut List) {
    list.group("program and erase in turns over one page");
    list.fresh(Firmware::filled(0xff));
    list.enable();
    for (program, erase) in [(1200, 9000), (2500, 20_000), (7000, 45_000), (3000, 60_000)] {
        list.program(&[(0x810, 0x00), (0x811, 0xf0), (0x87f, 0xcc)]);
        list.wait(program);
        list.control(SWE | PSU);
        list.look(0x810, 7, list.now);
        list.control(SWE);
        list.wait(5);
        list.erase(4);
        list.wait(erase);
        list.control(SWE | ESU);
        list.look(0x87f, 0, list.now);
        list.control(SWE);
        list.wait(10);
    }
}
