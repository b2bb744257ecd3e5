//! Captures of document 01 through the published Rust of the controller, and captures made from
//! seeds: what the program `oracle` and the comparison call by call share.

pub mod against;
pub mod answers;
pub mod capture;
pub mod cases;
pub mod chip;
pub mod clock;
pub mod cuts;
pub mod differ;
pub mod generate;
mod glass;
mod inside;
pub mod jobs;
pub mod list;
pub mod log;
mod names;
pub mod page;
pub mod picture;
pub mod planes;
pub mod png;
mod refreshes;
pub mod refusal;
mod registers;
pub mod replays;
pub mod rng;
pub mod rows;
pub mod run;
pub mod script;
pub mod stats;
mod tally;
#[cfg(test)]
mod tests;
pub mod tops;
pub mod trace;
pub mod vcom;
mod watch;
