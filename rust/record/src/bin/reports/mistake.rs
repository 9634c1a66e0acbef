//! Why a line is none of the format, and where.

/// What a word is not, or what is missing.
#[derive(Clone, Copy, Debug, PartialEq, Eq)]
pub enum Reason {
    TooLong,
    NoTime,
    TooManyDecimals,
    TooLarge,
    NoTimeBefore,
    PastTheLastInstant,
    NoCall,
    UnknownCall,
    MoreWords,
    NoRegister,
    NoValue,
    BitTwice,
    NoAddress,
    PastTheEnd,
    WordPastTheEnd,
    NoByte,
    NoMode,
    NoModule,
    NoOscillator,
    NoBitNumber,
}

#[derive(Clone, Debug, PartialEq, Eq)]
pub struct Mistake {
    /// From 1, in bytes. Of a missing word, where it would begin.
    pub column: usize,
    /// As it stands in the line; empty if it is missing, and for a line as a whole.
    pub word: String,
    pub reason: Reason,
}
