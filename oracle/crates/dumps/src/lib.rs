//! Dumps of the analyser (2026-01): a plain reader that drives the published Rust, a writer of
//! dumps in many styles, dumps made by hand, and what holds `jollanqe vcd` to all of them.

pub mod against;
pub mod batch;
pub mod cases;
pub mod grammar;
pub mod judge;
pub mod list;
pub mod make;
mod mutate;
pub mod page;
pub mod real;
mod reference;
pub mod signals;
pub mod stand_in;
pub mod stats;
mod style;
#[cfg(test)]
mod tests;
mod waves;
pub mod words;
mod write;
