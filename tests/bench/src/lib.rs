//! What the benchmark measures with: the baseline in C, clock and
//! counter of cycles, costs and their tables, call lists, and texts.

pub mod baseline;
pub mod cache;
pub mod calls;
pub mod chains;
pub mod clock;
pub mod cost;
pub mod counter;
pub mod table;
pub mod words;
