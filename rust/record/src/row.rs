//! A row of the list: 64 bytes, with what the original answered. `crates/vectors/src/row.rt` has the same places.
//!
//! | bytes | what |
//! |---|---|
//! | 0 | a letter: G a group's name, N new, W register write, D data write, B byte read, H word read, P protect, R reset, O power-off, E environment, Q register, L look, C bytes changed, K length changed, S snapshot read, Z end |
//! | 1 | value written, mode, bit, register read, refusal's number, or how many bytes a name (from 2) or a change (from 24) has |
//! | 2 to 3 | address |
//! | 4 to 7 | a length, a place in the buffer, or in the last row how many rows; of E module and oscillator at 4 and 5; of a call the number of event words at 6 and 7 |
//! | 8 to 23 | time: whole seconds, fraction |
//! | 24 to 27, 28 to 29 | of a call: the sum of its event words, and the value read |
//! | 24, 25, 28 to 35 | of a look: byte, blank, charge |
//! | 24 to 35 | of new: the firmware's seed, factor and step |
//! | 36 to 40 | afterwards: F020 to F023 and F02B |
//! | 41, 42 | whether reading is normal, whether the state is valid |
//! | 44 to 47 | sum of the image |
//! | 48 to 51, 52 to 55 | length and sum of the snapshot |
//! | 60 to 63 | of the last row: the sum of all bytes before these |
//!
//! Numbers have the low byte first, sums are CRC-32, all else is 0.

pub const ROW: usize = 64;

/// A row that is being filled.
pub struct Row(pub [u8; ROW]);

impl Row {
    pub fn new(letter: u8) -> Self {
        let mut row = [0; ROW];
        row[0] = letter;
        Self(row)
    }

    pub fn put(mut self, at: usize, bytes: &[u8]) -> Self {
        self.0[at..at + bytes.len()].copy_from_slice(bytes);
        self
    }

    pub fn value(self, value: u8) -> Self {
        self.put(1, &[value])
    }

    pub fn address(self, address: u16) -> Self {
        self.put(2, &address.to_le_bytes())
    }

    pub fn size(self, size: usize) -> Self {
        self.put(4, &u32::try_from(size).expect("sizes are small").to_le_bytes())
    }

    pub fn time(self, now: u128) -> Self {
        self.put(8, &((now >> 64) as u64).to_le_bytes()).put(16, &(now as u64).to_le_bytes())
    }
}
