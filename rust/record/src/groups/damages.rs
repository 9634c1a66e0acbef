//! Snapshots that are damaged, each in one way or two, and what `validate` refuses.
use crate::call::{Call, Firmware};
use crate::list::List;
use crate::moves::*;
use crate::snapshot::*;

/// A page opened under a pulse that is still open, all of the state other than fresh; with a sense pending, no pulse.
pub fn base(list: &mut List, pending: bool) {
    list.fresh(Firmware::noise(73));
    list.enable();
    list.write(FLPWCR, 0x80);
    list.write(EBR1, 16);
    list.program(&[(0x3380, 0x00), (0x33ff, 0x69)]);
    list.wait(2000);
    if pending {
        list.control(SWE | PSU);
        list.control(SWE | PV);
        list.wait(9);
        list.data(0x3384, 0);
    } else {
        list.settle();
    }
}

/// Bytes of the buffer anew, and a restoring.
fn damaged(list: &mut List, at: usize, bytes: &[u8]) -> u8 {
    list.patch(at, bytes);
    list.restore()
}

pub fn damaged_fields(list: &mut List) {
    list.group("snapshots: damaged fields");
    base(list, true);
    let saved = list.saved();
    let fields = fields(&saved);
    for field in [ERROR, ENABLED, POWER_DOWN, OSCILLATOR, MODULE, OPTION] {
        for value in [2, 3, 0x80, 0xff] {
            damaged(list, fields + field, &[value]);
        }
    }
    for value in [3, 4, 0xff] {
        damaged(list, fields + SUPPLY, &[value]);
    }
    for value in [6, 7, 0xff] {
        damaged(list, fields + MODE, &[value]);
    }
    for count in [385u32, 386, 0x1_0000, 0x0100_0001, u32::MAX] {
        damaged(list, COUNT, &count.to_le_bytes());
    }
    for address in [1u16, 0x3381, 0x33ff, 0xc000, 0xc080, 0xff80, 0xffff] {
        damaged(list, page(0), &address.to_le_bytes());
    }
    for place in [0, 1, 511, 1022, 1023] {
        for charge in [FULL + 1, u64::MAX] {
            damaged(list, cell(0, place), &charge.to_le_bytes());
        }
    }
}

pub fn repeated_pages(list: &mut List) {
    list.group("snapshots: page addresses of three pages");
    list.fresh(Firmware::noise(74));
    list.enable();
    for address in [0x0700, 0x0200, 0x0080] {
        list.program(&[(address, 0x00)]);
        list.wait(1000);
        list.control(SWE);
        list.wait(5);
    }
    for (slot, address) in [(1, 0x0700u16), (2, 0x0700), (2, 0x0200), (0, 0x0080), (0, 0x0200)] {
        damaged(list, page(slot), &address.to_le_bytes());
    }
    // Another page's charges: accepted, and the chip goes on with them.
    damaged(list, page(1), &0xbf80u16.to_le_bytes());
    list.look(0xbf80, 0, list.now);
    list.look(0x0200, 0, list.now);
    list.program(&[(0x0200, 0xfe)]);
    list.wait(100);
    list.control(SWE);
}

/// Cut at every boundary of fields and a byte to either side: at good charge pages, for the original reads a page whole before it
/// judges it.
pub fn cuts(list: &mut List) {
    list.group("snapshots: cut short, and bytes left over");
    for pending in [true, false] {
        base(list, pending);
        let saved = list.saved();
        let fields = fields(&saved);
        let ends = [0, COUNT, COUNT + 4, page(0) + 2, cell(0, 1), cell(0, 1023), fields];
        let inner =
            [1, 2, 3, 4, 5, 133, 135, 136, 137, 138, 139, 155, 171, 187, 203, 219, 235, 251];
        let rest = [252, 254, 270, 273].map(|at| fields + at);
        let inner = inner.map(|at| fields + at);
        for end in ends.iter().chain(&inner).chain(&rest) {
            for length in [end.saturating_sub(1), *end, end + 1] {
                if length < saved.len() {
                    list.cut(length);
                    list.restore();
                }
            }
        }
        for more in [1, 2, 18, 8194, 49_412] {
            list.cut(saved.len() + more);
            list.restore();
        }
    }
}

/// The first offending field in reading order decides; bytes left over come before validity.
pub fn two_damages(list: &mut List) {
    list.group("snapshots: two damages at once");
    base(list, true);
    let saved = list.saved();
    let fields = fields(&saved);
    let flags: [(usize, &[u8]); 4] =
        [(ERROR, &[2]), (SUPPLY, &[3]), (MODE, &[9]), (OPTION, &[0xfe])];
    for (field, bytes) in flags {
        for end in [fields + field, fields + field + 1, saved.len() - 1, saved.len() + 1] {
            list.patch(fields + field, bytes);
            list.cut(end);
            list.restore();
        }
    }
    let invalid: [(usize, &[u8]); 4] =
        [(CONTROL, &[0xc4]), (ERASE, &[0x40]), (PAGE, &[1]), (PENDING_ADDRESS, &[1])];
    for (field, bytes) in invalid {
        for end in [saved.len() - 1, saved.len(), saved.len() + 1] {
            list.patch(fields + field, bytes);
            list.cut(end);
            list.restore();
        }
        list.patch(fields + field, bytes);
        damaged(list, fields + MODULE, &[2]);
        list.patch(fields + field, bytes);
        damaged(list, COUNT, &[0xff, 0xff]);
    }
    list.patch(cell(0, 7), &u64::MAX.to_le_bytes());
    list.cut(fields);
    list.restore();
    list.patch(page(0), &[1]);
    list.cut(fields + 1);
    list.restore();
}

/// What `validate` refuses, each next to what it just accepts. What is accepted is gone on with.
pub fn validity(list: &mut List) {
    list.group("snapshots: what validate says");
    let cases: [(usize, &[&[u8]]); 4] = [
        (CONTROL, &[&[0x80], &[0xc4], &[0xff], &[0x7f], &[0x3f], &[0x00]]),
        (ERASE, &[&[0x40], &[0x80], &[0xc0], &[0xff], &[0x3f], &[0x03], &[0x20]]),
        (PAGE, &[&[1, 0], &[0x40, 0], &[0x81, 0x33], &[0, 0xc0], &[0x80, 0xff], &[0x80, 0xbf]]),
        (
            PENDING_ADDRESS,
            &[&[1, 0], &[2, 0], &[3, 0x80], &[0, 0xc0], &[0xfc, 0xff], &[0xfc, 0xbf], &[0, 0]],
        ),
    ];
    for (field, values) in cases {
        for value in values {
            base(list, true);
            let fields = fields(&list.saved());
            damaged(list, fields + field, value);
            list.wait(10);
            list.settle();
            list.call(Call::Read16(0x3384));
        }
    }
    // The last settling against the time of reading.
    for pending in [true, false] {
        base(list, pending);
        let now = list.now;
        for earlier in [1, micros(1), now] {
            list.now = now - earlier;
            list.restore();
        }
        list.now = now;
        list.restore();
        list.now += 1;
        list.restore();
        let fields = fields(&list.saved());
        let later = (list.now as u64).wrapping_add(1);
        damaged(list, fields + SINCE, &later.to_le_bytes());
        list.now += 1;
        damaged(list, fields + SINCE, &later.to_le_bytes());
        list.wait(5);
        list.settle();
    }
}
