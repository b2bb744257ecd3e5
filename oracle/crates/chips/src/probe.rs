//! Ours, not published: hands out the crate-private arithmetic of `glass.rs` for test vectors.

use crate::glass::{self, Transfer};

/// `glass::level`: the optical state of grey `gray`.
#[must_use]
pub fn level(gray: u8, swing: i64) -> i64 {
    glass::level(gray, swing)
}

/// `glass::gray`: the grey of optical state `state`.
#[must_use]
pub fn gray(state: i64, swing: i64) -> u8 {
    glass::gray(state, swing)
}

/// Where `state` ends after `drives`, composed into one transfer before it is applied.
#[must_use]
pub fn walk(swing: i64, drives: &[i64], state: i64) -> i64 {
    drives
        .iter()
        .fold(Transfer::identity(swing), |run, &drive| {
            run.then(Transfer::shift(drive, swing))
        })
        .apply(state)
}
