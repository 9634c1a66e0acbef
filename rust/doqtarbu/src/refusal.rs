use std::{error, fmt};

/// Why the library did nothing: the lines of document 01's table, by their numbers and in its words.
#[derive(Clone, Copy, Debug, PartialEq, Eq, Hash)]
#[repr(u32)]
#[allow(missing_docs)] // each says itself below
pub enum Refusal {
    FirmwareLength = 1,
    LentLength = 2,
    Record = 3,
    Address = 4,
    LastSecond = 5,
    BeforeSettling = 6,
    FewEventWords = 7,
    ShortOutput = 8,
    SnapshotEndsEarly = 9,
    SnapshotField = 10,
    SnapshotLeftOver = 11,
    SnapshotInvalid = 12,
}

impl Refusal {
    /// All of them, in the order of their numbers.
    pub const ALL: [Refusal; 12] = [
        Refusal::FirmwareLength,
        Refusal::LentLength,
        Refusal::Record,
        Refusal::Address,
        Refusal::LastSecond,
        Refusal::BeforeSettling,
        Refusal::FewEventWords,
        Refusal::ShortOutput,
        Refusal::SnapshotEndsEarly,
        Refusal::SnapshotField,
        Refusal::SnapshotLeftOver,
        Refusal::SnapshotInvalid,
    ];

    /// Its number in the table.
    pub fn number(self) -> u32 {
        self as u32
    }

    /// What the library's number says: nothing for 0, which is an answer.
    ///
    /// # Panics
    /// On a number that no function of the library returns.
    pub fn check(number: u32) -> Result<(), Refusal> {
        match number {
            0 => Ok(()),
            1..=12 => Err(Refusal::ALL[number as usize - 1]),
            _ => panic!("the library returned {number}, which is no refusal"),
        }
    }
}

impl fmt::Display for Refusal {
    fn fmt(&self, f: &mut fmt::Formatter<'_>) -> fmt::Result {
        let words = match self {
            Refusal::FirmwareLength => "firmware not 49,152 bytes",
            Refusal::LentLength => {
                "record not of its one length, array not 49,152 bytes, \
                 charge store not 393,216 numbers"
            }
            Refusal::Record => {
                "record: a byte that is no flag, mode, supply or option; bytes that no state is \
                 written as; control bit 7; page or pending address misaligned or past the end; \
                 used slots not one-to-one with opened pages"
            }
            Refusal::Address => {
                "byte read, peek, cell, blank page or data write at C000 hex or more; word BFFF hex \
                 or more; bit over 7; mode over 5"
            }
            Refusal::LastSecond => "whole seconds 2^64-1",
            Refusal::BeforeSettling => "before the last settling",
            Refusal::FewEventWords => {
                "pulse open with range of k > 0 bytes and fewer than k+1 words"
            }
            Refusal::ShortOutput => "output too short for image or snapshot",
            Refusal::SnapshotEndsEarly => "snapshot ends early",
            Refusal::SnapshotField => {
                "snapshot: flag, mode, supply or option byte unknown; over 384 charge pages; page \
                 address misaligned, past the end or repeated; charge over FULL"
            }
            Refusal::SnapshotLeftOver => "snapshot: bytes left over",
            Refusal::SnapshotInvalid => "snapshot: `validate` says no",
        };
        write!(f, "refused by {}: {words}", self.number())
    }
}

impl error::Error for Refusal {}

#[cfg(test)]
mod tests {
    use super::Refusal;

    #[test]
    fn numbers() {
        assert_eq!(Refusal::check(0), Ok(()));
        for (i, refusal) in Refusal::ALL.into_iter().enumerate() {
            assert_eq!(refusal.number(), i as u32 + 1);
            assert_eq!(Refusal::check(refusal.number()), Err(refusal));
        }
    }
}
