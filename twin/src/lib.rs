//! A second model of the desk board, and what is needed to compare it with the first.
//!
//! * [`twin`] is the second model: plain Rust, no code shared with the first.
//! * [`desk`] is the first: safe calls of the archive behind `include/deskboard.h`.
//! * [`card`] is the interface both have.
//! * [`random`] makes the inputs.

pub mod card;
#[cfg(feature = "desk")]
pub mod desk;
pub mod random;
pub mod twin;
