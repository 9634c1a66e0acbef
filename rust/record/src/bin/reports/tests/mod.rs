//! The reader, the times and the runs.
mod lines;
mod running;
mod times;

/// 1 and 50 microseconds: 2^64 is 18446744073709551616.
const MICRO: u128 = 18_446_744_073_709;
const FIFTY: u128 = 922_337_203_685_477;
