//! The original Rust flash, compiled unchanged from a folder that the user names, so that a program can run it beside
//! the port. `build.rs` says which folder; no line of it stands in this repository.
//!
//! The original's own are `time`, `signals`, `state` and `mcu::flash`. Stand-ins are the crate `borsh` for the crate of
//! that name, and the module `stand_ins` for what the four files take from the rest of the original. [`Original`] is
//! the flash with every function of it that the port has, also those that the original keeps to its own crate.
#![forbid(unsafe_code)]

include!(concat!(env!("OUT_DIR"), "/modules.rs"));

mod facade;
mod stand_ins;

pub use facade::{event_word, refusal_number, Original};
pub use mcu::control::Mode;
pub use signals::{Event, NvDomain, Output};
pub use stand_ins::{cpu, error, error::Error};
pub use time::Time;
