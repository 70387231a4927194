//! The touch chart of a trench, written in plain Rust from the specification (document 01) alone.
//!
//! The calls are [`open`], [`offer`], [`sweep`], [`turn`], [`chart`], [`write`], [`scan`], [`same`]
//! and [`ring`]. Each gives its result or a [`Refusal`] with the number and the place of the
//! specification's table. A refused call leaves the sheet as it was.
//!
//! The module [`plain`] holds slow versions that follow the specification's sentences one by one.
//! They share no code with the calls and serve to test them.
#![forbid(unsafe_code)]
#![warn(missing_docs)]

mod calls;
mod chart;
mod file;
mod geometry;
mod labels;
pub mod plain;
mod plan;
mod print;
mod scan;
mod sweep;
mod types;

pub use calls::{chart, offer, same, scan, sweep, turn};
pub use chart::least_chart;
pub use file::{encode, open, ring, write};
pub use geometry::{doubled_area, inner_faces, strictly_inside};
pub use labels::test_labels;
pub use plain::{chart as chart_plain, scan as scan_plain, sweep as sweep_plain};
pub use print::{sheetprint, PRINT_LIMIT};
pub use scan::smallest_triple;
pub use sweep::sweep_labels;
pub use types::{Chart, Labels, Plan, Refusal, Sheet, Stage};
