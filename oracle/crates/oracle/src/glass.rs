//! Answers of the published `level` and `gray` as rows, and greys at tops.

use chips::probe;

use crate::rng::Rng;
use crate::tops;

const MOST_SWING: u64 = i64::MAX as u64;

/// Swings at which a form other than the Rust's 128-bit one can go wrong.
const EDGE_SWINGS: [u64; 13] = [
    1,
    2,
    254,
    255,
    256,
    509,
    510,
    511,
    (1 << 54) - 1,
    1 << 54,
    (1 << 54) + 1,
    MOST_SWING - 1,
    MOST_SWING,
];

fn swing(rng: &mut Rng) -> u64 {
    if rng.chance(50) {
        rng.pick(&EDGE_SWINGS)
    } else {
        rng.wide(63)
    }
}

/// The least state of grey `grey` or above: (2 grey - 1) / 510 of the swing, rounded up.
fn turn(grey: u8, swing: u64) -> u64 {
    let halves = (2 * u128::from(grey)).saturating_sub(1);
    (halves * u128::from(swing)).div_ceil(510) as u64
}

fn state(rng: &mut Rng, swing: u64) -> u64 {
    match rng.below(8) {
        0 => rng.pick(&[0, 1, swing - 1, swing]),
        1..=3 => turn(rng.byte(), swing),
        4..=5 => turn(rng.byte(), swing).saturating_sub(1),
        _ => rng.between(0, swing),
    }
}

fn grey(rng: &mut Rng) -> u8 {
    if rng.chance(20) {
        rng.pick(&[0, 1, 254, 255])
    } else {
        rng.byte()
    }
}

fn signed(number: u64) -> i64 {
    i64::try_from(number).expect("states and swings stay below 2^63")
}

/// `level GREY SWING STATE`: arguments, then the answer.
pub fn level_row(rng: &mut Rng) -> String {
    let swing = swing(rng);
    let grey = grey(rng);
    let state = probe::level(grey, signed(swing));
    format!("level {grey} {swing} {state}")
}

/// `gray STATE SWING GREY`: arguments, then the answer.
pub fn gray_row(rng: &mut Rng) -> String {
    let swing = swing(rng);
    let state = state(rng, swing);
    let grey = probe::gray(signed(state), signed(swing));
    format!("gray {state} {swing} {grey}")
}

/// A top, a state near the middle of two of its greys or any other, and a swing.
fn toned(rng: &mut Rng) -> (u16, u64, u64) {
    let swing = swing(rng);
    let top = match rng.below(3) {
        0 => rng.pick(&[0, 1, 2, 254, 255, 256, 65_534, 65_535]),
        _ => rng.between(1, 65_535) as u16,
    };
    let state = if rng.chance(60) {
        let white = if top == 0 { 255 } else { u64::from(top) };
        let halves = u128::from(2 * rng.below(white) + 1);
        let middle = (halves * u128::from(swing)).div_ceil(2 * u128::from(white)) as u64;
        middle.saturating_sub(rng.below(2)).min(swing)
    } else {
        state(rng, swing)
    };
    (top, state, swing)
}

/// `wide TOP STATE SWING GREY`: arguments, then the answer, which is not the Rust's.
pub fn wide_row(rng: &mut Rng) -> String {
    let (top, state, swing) = toned(rng);
    let grey = tops::grey(signed(state), signed(swing), top);
    format!("wide {top} {state} {swing} {grey}")
}
