//! Seeded generators of plans, files, label lists and turn lists for the touch chart.
//!
//! Everything is worked out from a [`Random`] with a given seed, so that equal seeds give equal
//! inputs. Plans are tables of rings; nothing here depends on an implementation of the calls.
#![forbid(unsafe_code)]
#![warn(missing_docs)]

pub mod damage;
pub mod edit;
pub mod families;
pub mod file;
pub mod odd;
mod random;
pub mod sample;

pub use random::Random;

/// A table of rings, one per context.
pub type Rings = Vec<Vec<u16>>;
