//! What the two programs share: calls to the original, and what its snapshot tells.
#![forbid(unsafe_code)]

pub mod call;
pub mod snapshot;
