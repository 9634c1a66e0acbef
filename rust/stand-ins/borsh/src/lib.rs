//! Stand-in for the crate of this name: as much of Borsh as the original's four files ask for, so that they compile
//! unchanged and nothing has to be fetched.
//!
//! The bytes are those of the Borsh specification: numbers little-endian, a flag or an option one byte 0 or 1, a vector
//! after its count in four bytes, the fields of a struct in their order. Traits, methods and error texts are called
//! as in the real crate, and reading and writing go in the same pieces, so that times measured here tell about it.
//!
//! The derives refuse what they were not made for:
//!
//! ```compile_fail
//! #[derive(borsh::BorshSerialize)]
//! struct Parameter<T>(T);
//! ```
//! ```compile_fail
//! #[derive(borsh::BorshSerialize)]
//! enum NumbersNotNamed { A = 0 }
//! ```
//! ```compile_fail
//! #[derive(borsh::BorshSerialize)]
//! #[borsh(use_discriminant = true)]
//! enum NumberNotGiven { A }
//! ```
//! ```compile_fail
//! #[derive(borsh::BorshSerialize)]
//! #[borsh(use_discriminant = true)]
//! enum Fields { A(u8) }
//! ```
//! ```compile_fail
//! #[derive(borsh::BorshSerialize)]
//! struct Attribute { #[borsh(bound = "")] field: u8 }
//! ```
#![forbid(unsafe_code)]

mod read;
mod write;

pub use borsh_derive::{BorshDeserialize, BorshSerialize};
pub use read::{
    from_slice, unexpected_variant, BorshDeserialize, NOT_ALL_BYTES_READ,
    UNEXPECTED_LENGTH_OF_INPUT,
};
pub use write::{to_vec, to_writer, BorshSerialize};
