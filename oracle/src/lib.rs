//! The original Rust beside the proved archive: the stages of both, in one form.
//!
//! `stages` runs each stage of the original on plain values; `theirs` gives the original's outcome of
//! a call, by watching what it does; `second` is a second implementation of what takes two tolerances,
//! which the original has not; the others are the cases of the comparison.

pub mod at_once;
pub mod axes;
pub mod call;
pub mod cases;
pub mod damaged;
pub mod findings;
pub mod hostile;
pub mod late;
pub mod limits;
pub mod ours;
pub mod print;
pub mod random;
pub mod realistic;
pub mod record;
pub mod refusal;
pub mod scaled;
pub mod second;
pub mod shapes;
pub mod stages;
pub mod starts;
pub mod straight;
pub mod tally;
pub mod theirs;
