//! Firmware of another length.
use crate::call::{Firmware, ARRAY};
use crate::list::List;

pub fn firmware(list: &mut List) {
    list.group("new, and firmware of another length");
    list.fresh(Firmware::filled(0xff));
    for length in [0, 1, ARRAY as u32 - 1, ARRAY as u32 + 1, 65_535] {
        list.firmware(Firmware::noise(7).of_length(length));
    }
    list.firmware(Firmware::noise(7));
}
