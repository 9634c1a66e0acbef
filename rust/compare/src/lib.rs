//! The port beside the original: histories of calls from a seed, both run on them, everything compared after each call.
//! What was reached is counted; a difference is made as short as it gets and printed so that it can be replayed.
#![forbid(unsafe_code)]

pub mod forge;
pub mod generate;
pub mod history;
pub mod pair;
pub mod reach;
pub mod rng;
pub mod shrink;
pub mod view;
#[cfg(feature = "wrong")]
pub mod wrong;
