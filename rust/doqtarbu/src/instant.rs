/// An instant, in raw units of 2^-64 s since the beginning of the history.
#[derive(Clone, Copy, Debug, Default, PartialEq, Eq, PartialOrd, Ord, Hash)]
pub struct Instant(pub u128);

impl Instant {
    /// Whole seconds, and a fraction in raw units.
    pub const fn new(seconds: u64, fraction: u64) -> Self {
        Instant((seconds as u128) << 64 | fraction as u128)
    }

    /// So many microseconds, rounded down to a raw unit.
    pub const fn from_micros(micros: u64) -> Self {
        let (seconds, rest) = (micros / 1_000_000, (micros % 1_000_000) as u128);
        Instant::new(seconds, ((rest << 64) / 1_000_000) as u64)
    }

    /// The whole seconds.
    pub const fn seconds(self) -> u64 {
        (self.0 >> 64) as u64
    }

    /// The fraction, in raw units.
    pub const fn fraction(self) -> u64 {
        self.0 as u64
    }
}
