//! What the four files take from the rest of the original, only as large as they need it.

/// The array's bytes.
pub const FLASH_SIZE: usize = 48 * 1024;

pub mod cpu {
    /// How wide a read is.
    #[derive(Clone, Copy, PartialEq, Eq)]
    pub enum Width {
        Byte,
        Word,
    }
}

pub mod error {
    use crate::time::TimeError;

    /// The errors that the four files give.
    #[derive(Clone, Copy, Debug, PartialEq, Eq)]
    pub enum Error {
        /// Document 01's refusal 1.
        ImageSize {
            name: &'static str,
            expected: usize,
            actual: usize,
        },
        /// Document 01's refusal 12.
        Snapshot(&'static str),
        /// An instant past the last one.
        Time(TimeError),
        Internal(&'static str),
    }

    impl From<TimeError> for Error {
        fn from(error: TimeError) -> Self {
            Self::Time(error)
        }
    }
}

pub mod control {
    use borsh::{BorshDeserialize, BorshSerialize};

    /// The operating modes, by document 01's numbers; these are also what a snapshot holds.
    #[derive(Clone, Copy, Debug, PartialEq, Eq, BorshSerialize, BorshDeserialize)]
    #[borsh(use_discriminant = true)]
    pub enum Mode {
        Active = 0,
        Subactive = 1,
        Sleep = 2,
        Subsleep = 3,
        Watch = 4,
        Standby = 5,
    }

    impl Mode {
        /// The mode of this number, if there is one.
        #[inline]
        pub fn from_number(number: u8) -> Option<Self> {
            use Mode::*;
            [Active, Subactive, Sleep, Subsleep, Watch, Standby].get(usize::from(number)).copied()
        }
    }
}
