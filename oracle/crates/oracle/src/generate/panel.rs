//! Panels to drive: sizes, swings matched with the drives or extreme, periods and times.

use crate::capture::Configuration;
use crate::rng::Rng;

use super::bench::Panel;

/// Millivolts of the default VDH.
pub const USUAL_MILLIVOLTS: u64 = 14_000;
pub const MOST_SWING: u64 = i64::MAX as u64;

const EDGE_SWINGS: [u64; 12] = [
    1,
    2,
    3,
    254,
    255,
    256,
    510,
    (1 << 54) - 1,
    1 << 54,
    1 << 62,
    MOST_SWING - 1,
    MOST_SWING,
];
const EDGE_TIMES: [u64; 10] = [
    1,
    2,
    3,
    1 << 32,
    1 << 50,
    (1 << 63) - 1,
    1 << 63,
    (1 << 63) + 1,
    u64::MAX - 1,
    u64::MAX,
];
/// Panels of exactly 8,000 pixels.
const LARGEST: [(u16, u16); 8] = [
    (800, 10),
    (400, 20),
    (200, 40),
    (160, 50),
    (100, 80),
    (80, 100),
    (40, 200),
    (16, 500),
];

fn side(rng: &mut Rng, most: u64) -> u16 {
    rng.between(1, most) as u16
}

fn size(rng: &mut Rng) -> (u16, u16) {
    match rng.below(100) {
        0..=1 => (1, 1),
        2..=24 => (side(rng, 9), side(rng, 5)),
        25..=84 => (side(rng, 40), side(rng, 10)),
        85..=95 => (side(rng, 100), side(rng, 30)),
        96 => rng.pick(&LARGEST),
        97 => (side(rng, 10), 601 - side(rng, 300)),
        98 => (801 - side(rng, 300), side(rng, 8)),
        _ => (801 - side(rng, 8), side(rng, 5)),
    }
}

/// How long an operation lasts; none at all is a corner of its own.
fn usual_time(rng: &mut Rng) -> u64 {
    if rng.chance(15) { 0 } else { rng.below(300) }
}

fn base(rng: &mut Rng) -> Configuration {
    let (sources, gates) = size(rng);
    Configuration {
        variant: rng.below(2) as u8,
        flags: rng.below(8) as u8,
        sources,
        gates,
        initial_grey: rng.byte(),
        ambient: rng.byte(),
        full_swing: 1,
        power_on: usual_time(rng),
        power_off: usual_time(rng),
        deep_sleep: usual_time(rng),
        soft_reset: usual_time(rng),
        hardware_reset: usual_time(rng),
        periods: [1; 32],
        rate: None,
    }
}

/// A period near which all 32 lie, so that a swing matched with one is near for each.
fn usual_period(rng: &mut Rng) -> u64 {
    match rng.below(4) {
        0 => rng.between(1, 9),
        1 => 1_000,
        2 => rng.between(10, 5_000),
        _ => rng.pick(&[5_000_000, 20_000_000, 200_000_000]),
    }
}

/// A panel whose full swing is a few to a few dozen frames of the usual levels.
pub fn matched(mut rng: Rng) -> Panel {
    let mut configuration = base(&mut rng);
    let period = usual_period(&mut rng);
    let alike = rng.chance(40);
    configuration.periods = std::array::from_fn(|_| match alike {
        true => period,
        false => rng.between(period, 2 * period),
    });
    let frames = rng.between(1, 40);
    let swing = USUAL_MILLIVOLTS * period * frames;
    configuration.full_swing = match rng.chance(50) {
        true => swing,
        false => rng.between(swing / 2, 2 * swing),
    };
    Panel {
        configuration,
        frames,
        start: start(&mut rng),
        pace: pace(&mut rng),
        own_vcom: false,
        rng,
    }
}

/// A panel whose swing, periods and times lie anywhere, ends included.
pub fn extreme(mut rng: Rng) -> Panel {
    let mut configuration = base(&mut rng);
    configuration.full_swing = rng.edgy(&EDGE_SWINGS, 1, MOST_SWING);
    configuration.periods = std::array::from_fn(|_| rng.edgy(&EDGE_TIMES, 1, u64::MAX));
    if rng.chance(30) {
        configuration.power_off = rng.edgy(&EDGE_TIMES, 0, u64::MAX);
        configuration.soft_reset = rng.edgy(&EDGE_TIMES, 0, u64::MAX);
        configuration.deep_sleep = rng.edgy(&EDGE_TIMES, 0, u64::MAX);
    }
    if rng.chance(10) {
        configuration.power_on = rng.edgy(&EDGE_TIMES, 0, u64::MAX);
        configuration.hardware_reset = rng.edgy(&EDGE_TIMES, 0, u64::MAX);
    }
    Panel {
        configuration,
        frames: rng.between(1, 12),
        start: extreme_start(&mut rng),
        pace: pace(&mut rng),
        own_vcom: false,
        rng,
    }
}

fn start(rng: &mut Rng) -> u64 {
    match rng.below(10) {
        0..=5 => 0,
        6..=8 => rng.wide(40),
        _ => extreme_start(rng),
    }
}

fn extreme_start(rng: &mut Rng) -> u64 {
    match rng.below(4) {
        0 => 0,
        1 => rng.wide(64),
        2 => (1 << 63) - rng.below(1 << 12),
        _ => u64::MAX - rng.wide(48),
    }
}

fn pace(rng: &mut Rng) -> u64 {
    match rng.below(4) {
        0..=1 => 0,
        2 => 1,
        _ => rng.below(200),
    }
}
