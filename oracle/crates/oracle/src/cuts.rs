//! `oracle cuts`: the refreshes that reset cuts, as the published Rust shows them.

use std::fmt::Write;

use crate::tally::Cut;
use crate::{run, watch};

/// A line for each picture that the Rust marks as interrupted: its end, the whole frames from its
/// start to there, and those of the whole refresh, from which the deadline follows that the Rust
/// had.
pub fn cuts(file: &[u8]) -> String {
    let capture = match run::accept_any(file) {
        Err(refusal) => return run::refused(refusal),
        Ok((capture, _)) => capture,
    };
    let mut text = String::new();
    for Cut { at, frames, of } in watch::facts(&capture).cuts {
        let _ = writeln!(text, "cut {at} {frames} {of}");
    }
    text
}
