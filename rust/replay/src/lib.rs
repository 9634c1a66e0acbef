//! Replays a list of calls on lent memory, the record read and written once.
#![deny(missing_docs)]
use doqtarbu::{Call, Instant, Lent};

extern "C" {
    fn flash_replay(
        record: *mut u8,
        record_len: usize,
        array: *mut u8,
        array_len: usize,
        charges: *mut u64,
        charges_len: usize,
        events: *mut u64,
        events_len: usize,
        calls: *const u64,
        calls_len: usize,
        from: usize,
        to: usize,
        done: *mut u64,
        value: *mut u16,
        count: *mut u64,
    ) -> u32;
}

/// Where a replay stopped, and what the last call said.
#[derive(Clone, Copy, Debug, PartialEq, Eq)]
pub struct Replayed {
    /// The first call that is not done.
    pub done: usize,
    /// The last call's refusal, 0 for none.
    pub number: u32,
    /// What it read.
    pub value: u16,
    /// How many event words it gave.
    pub count: usize,
}

/// A call as the three numbers that a list has for it.
pub fn words(call: Call, at: Instant) -> [u64; 3] {
    let packed =
        |kind: u64, first: u16, second: u8| kind << 24 | u64::from(first) << 8 | u64::from(second);
    let what = match call {
        Call::WriteRegister { address, value } => packed(0, address, value),
        Call::Write8 { address, value } => packed(1, address, value),
        Call::Read8 { address } => packed(2, address, 0),
        Call::Read16 { address } => packed(3, address, 0),
        Call::Protect => packed(4, 0, 0),
        Call::Reset => packed(5, 0, 0),
        Call::PowerOff => packed(6, 0, 0),
        Call::Environment { mode, module, oscillator } => {
            packed(7, mode.into(), u8::from(module) + 2 * u8::from(oscillator))
        }
    };
    [what, (at.0 >> 64) as u64, at.0 as u64]
}

/// Does the calls `from..to` of a list, up to one that is refused, gives event words or reads.
pub fn replay(lent: &mut Lent, calls: &[u64], from: usize, to: usize) -> Replayed {
    let (mut done, mut value, mut count) = (0, 0, 0);
    // Sound as in `doqtarbu`: pointers of vectors and slices are aligned and never null, and no two of them overlap.
    let number = unsafe {
        flash_replay(
            lent.record.as_mut_ptr(),
            lent.record.len(),
            lent.array.as_mut_ptr(),
            lent.array.len(),
            lent.charges.as_mut_ptr(),
            lent.charges.len(),
            lent.events.as_mut_ptr(),
            lent.events.len(),
            calls.as_ptr(),
            calls.len(),
            from,
            to,
            &mut done,
            &mut value,
            &mut count,
        )
    };
    Replayed { done: done as usize, number, value, count: count as usize }
}
