//! Snapshots: read back and gone on with, and states that only they can hold.
use super::damages::base;
use crate::call::{Call, Firmware};
use crate::list::List;
use crate::moves::*;
use crate::snapshot::*;

/// A restoring of the chip as it is, and then calls that would show what was lost.
fn restored(list: &mut List) {
    list.restore();
    list.wait(300);
    list.settle();
    list.restore();
    list.wait(300);
    list.control(SWE);
}

pub fn page_counts(list: &mut List) {
    list.group("snapshots of 0, 1, 3, 8 and 32 pages");
    list.fresh(Firmware::noise(70));
    restored(list);
    list.enable();
    // Pages in falling address: slots are not in the order of addresses.
    for page in [0x0700, 0x0200, 0x0080] {
        list.program(&[(page + 1, 0x00), (page + 2, 0x33)]);
        list.wait(1500);
        restored(list);
        list.wait(5);
    }
    for (value, _, _) in &BLOCKS[..4] {
        list.erase(*value);
        list.wait(30_000);
        restored(list);
        list.wait(10);
    }
}

/// Block 4 by itself, in the middle of its pulse.
pub fn pages_224(list: &mut List) {
    list.group("snapshots of 224 pages");
    list.fresh(Firmware::noise(71));
    list.enable();
    list.erase(16);
    list.wait(70_000);
    list.settle();
    list.restore();
    list.wait(9000);
    list.control(SWE | ESU);
}

pub fn pages_384(list: &mut List) {
    list.group("snapshots of 384 pages");
    list.fresh(Firmware::noise(72));
    list.enable();
    for value in [32, 1, 16, 8, 2, 4] {
        list.write(EBR1, value);
        list.control(SWE | ESU | E);
        list.wait(60_000);
    }
    list.restore();
    let bytes = list.saved();
    list.patch(cell(383, 1023), &(FULL + 1).to_le_bytes());
    list.restore();
    list.cut(bytes.len() - 1);
    list.restore();
    list.wait(8000);
    list.settle();
    list.look(0x0bff, 7, list.now);
    list.look(0xbfff, 7, list.now);
    list.control(SWE | ESU);
}

/// Fields, from where they begin, and their bytes.
type Patches = &'static [(usize, &'static [u8])];

/// States that no call leaves: they are accepted, and go on by the same rules.
pub fn only_snapshots(list: &mut List) {
    list.group("snapshots: states that no call leaves");
    let cases: [(bool, Patches); 12] = [
        // A sense under no verify mode is dropped when due.
        (true, &[(CONTROL, &[SWE])]),
        (true, &[(CONTROL, &[SWE | EV])]),
        (true, &[(CONTROL, &[PV])]),
        (true, &[(SUPPLY, &[2])]),
        (true, &[(SUPPLY, &[1])]),
        (true, &[(OSCILLATOR, &[0])]),
        // A supply that the mode does not give.
        (false, &[(SUPPLY, &[1])]),
        (false, &[(MODE, &[4])]),
        (false, &[(MODULE, &[0])]),
        (false, &[(ERROR, &[1])]),
        // An erase pulse with a block, and with two.
        (false, &[(CONTROL, &[SWE | ESU | E]), (ERASE, &[8])]),
        (false, &[(CONTROL, &[SWE | ESU | E]), (ERASE, &[0x30])]),
    ];
    for (pending, patches) in cases {
        base(list, pending);
        let fields = fields(&list.saved());
        for (field, bytes) in patches {
            list.patch(fields + field, bytes);
        }
        list.restore();
        list.look(0x3384, 1, list.now + micros(50_000));
        list.wait(3);
        list.call(Call::Read8(0x3385));
        list.call(Call::Environment(0, true, true));
        list.wait(25);
        list.settle();
        list.wait(30_000);
        list.call(Call::WriteRegister(FLMCR1, SWE | PSU));
        list.call(Call::Environment(1, true, true));
    }
    // A latch and an array from elsewhere.
    base(list, false);
    let fields = fields(&list.saved());
    list.patch(fields + LATCH, &[0, 1, 2, 3, 4, 5, 6, 7]);
    list.patch(0x3380, &[0xff, 0x00, 0xff, 0x00]);
    list.patch(0x9000, &[0x12, 0x34]);
    list.restore();
    list.wait(700);
    list.settle();
    list.look(0x9000, 0, list.now);
    list.control(SWE | PSU);
}

/// Each of the times by itself later than the others: what it holds up, and what not.
pub fn times(list: &mut List) {
    list.group("snapshots: each time later than the others");
    let fields_of_time = [READY, SWE_READY, PROGRAM_READY, ERASE_READY, RECOVERY, VERIFY_READY];
    for field in fields_of_time {
        for (pending, control) in [(false, SWE | PSU | P), (false, SWE | ESU | E), (true, SWE | PV)]
        {
            base(list, pending);
            let fields = fields(&list.saved());
            let due = list.now + micros(20);
            let halves = due.to_le_bytes();
            list.patch(fields + field, &halves[..8]);
            list.patch(fields + field + 8, &halves[8..]);
            list.patch(fields + CONTROL, &[control]);
            list.patch(fields + ERASE, &[8]);
            list.restore();
            list.look(0x3380, 0, due + 1);
            for now in [due - 1, due, due + 1] {
                list.now = now;
                list.data(0x3384, 0);
            }
            list.control(SWE);
            list.call(Call::Read8(0x3384));
        }
    }
}

/// The three values around each class's limit, sixteen classes at once.
fn around(list: &mut List, sense: usize, offset: i64, slot_page: usize) {
    for i in 0..16 {
        let class = class(slot_page * 8 + i);
        let limit = limits(class)[sense];
        let charge = limit.saturating_add_signed(offset).min(FULL);
        list.patch(cell(0, i), &charge.to_le_bytes());
    }
}

/// Charges at, under and over each limit: sensed normally by a settle that charges nothing latched, and by both verify senses.
pub fn limits_of_senses(list: &mut List) {
    list.group("charges at every class's three limits");
    let page = 0x3380;
    for offset in [-1, 0, 1] {
        // Every latch bit is 1, so a settle opens and senses, and charges no cell.
        list.fresh(Firmware::filled(0xff));
        list.enable();
        list.program(&[(page as u16, 0xff)]);
        list.wait_units(1);
        list.settle();
        around(list, 0, offset, page);
        list.restore();
        list.wait_units(1);
        list.settle();
        list.look(page as u16, 0, list.now);
        list.look(page as u16 + 1, 7, list.now);
        list.control(SWE);
        list.wait(10);
        list.call(Call::Read16(page as u16));
        for (sense, mode) in [(1, PV), (2, EV)] {
            list.control(SWE | mode);
            list.wait(30);
            list.data(page as u16, 0);
            around(list, sense, offset, page);
            list.restore();
            list.wait(2);
            list.call(Call::Read16(page as u16));
            list.call(Call::Read16(page as u16 + 2));
            list.control(SWE);
            list.wait(10);
        }
    }
}
