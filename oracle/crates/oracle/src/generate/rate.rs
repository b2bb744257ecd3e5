//! Boards with a rate, drawn by seed apart from all else: what a seed makes without one does not
//! depend on them.

use crate::capture::Capture;
use crate::clock::GIGAHERTZ;
use crate::rng::Rng;

use super::bench::Panel;
use super::panel::USUAL_MILLIVOLTS;

/// Keeps these draws apart from those of the capture.
const MARK: u64 = 0x7261_7465;
const SMALL_PRIMES: [u64; 9] = [5, 7, 11, 13, 17, 31, 61, 83, 97];
/// Rates that refusal 13 names.
pub const REFUSED: [u64; 3] = [0, GIGAHERTZ + 1, u64::MAX];

/// A class of rates, by its name in `oracle stats`, and whether a rate is of it.
type Class = (&'static str, fn(u64) -> bool);

/// The first that a rate is of counts.
const CLASSES: [Class; 14] = [
    ("1 Hz", |rate| rate == 1),
    ("2 Hz", |rate| rate == 2),
    ("3 Hz", |rate| rate == 3),
    ("a small prime", |rate| SMALL_PRIMES.contains(&rate)),
    ("32,768 Hz", |rate| rate == 32_768),
    ("1,000,000 Hz", |rate| rate == 1_000_000),
    ("12,345,679 Hz", |rate| rate == 12_345_679),
    ("999,999,937 Hz", |rate| rate == 999_999_937),
    ("999,999,999 Hz", |rate| rate == GIGAHERTZ - 1),
    ("1,000,000,000 Hz", |rate| rate == GIGAHERTZ),
    ("another, below 1,000 Hz", |rate| (1..1_000).contains(&rate)),
    ("another, from 1,000 Hz", |rate| {
        (1_000..GIGAHERTZ).contains(&rate)
    }),
    ("0 (refused)", |rate| rate == 0),
    ("above 1,000,000,000 Hz (refused)", |_| true),
];

/// The class of a configuration that has no rate.
pub const NO_RATE: &str = "none";

/// The name of every class, in the order in which they are counted.
pub fn names() -> impl Iterator<Item = &'static str> {
    [NO_RATE].into_iter().chain(CLASSES.map(|(name, _)| name))
}

pub fn class(rate: Option<u64>) -> &'static str {
    let Some(rate) = rate else { return NO_RATE };
    let found = CLASSES.iter().find(|(_, holds)| holds(rate));
    found.expect("the last takes every rate").0
}

/// A board's rate, and the draws that go with it.
pub struct Board {
    pub rng: Rng,
    rate: u64,
}

/// One seed in three has a board with a rate.
pub fn board(seed: u64) -> Option<Board> {
    let mut rng = Rng::new(seed ^ MARK);
    if rng.below(3) != 0 {
        return None;
    }
    let rate = match rng.below(12) {
        0 => 1,
        1 => 2,
        2 => 3,
        3 => rng.pick(&SMALL_PRIMES),
        4 => 32_768,
        5 => 1_000_000,
        6 => 12_345_679,
        7 => 999_999_937,
        8 => GIGAHERTZ - 1,
        9 => GIGAHERTZ,
        10 => rng.between(1, GIGAHERTZ),
        _ => rng.wide(30).min(GIGAHERTZ),
    };
    Some(Board { rng, rate })
}

impl Board {
    /// The panel on this board. Most often its frames take some cycles, or some share of one; left
    /// as they are they are lost in one cycle of a slow clock.
    pub fn with(&mut self, mut panel: Panel) -> Panel {
        panel.configuration.rate = Some(self.rate);
        let rng = &mut self.rng;
        let cycle = GIGAHERTZ.div_ceil(self.rate);
        let period = match rng.below(10) {
            0..=1 => return panel,
            2..=4 => rng.between(cycle.div_ceil(20), cycle),
            5..=7 => rng.between(cycle, 4 * cycle),
            _ => rng.between(4 * cycle, 60 * cycle),
        };
        let of = &mut panel.configuration;
        let alike = rng.chance(40);
        of.periods = of.periods.map(|_| match alike {
            true => period,
            false => rng.between(period, 2 * period),
        });
        of.full_swing = USUAL_MILLIVOLTS * period * panel.frames;
        for time in [
            &mut of.power_on,
            &mut of.power_off,
            &mut of.deep_sleep,
            &mut of.soft_reset,
            &mut of.hardware_reset,
        ] {
            if rng.chance(50) {
                *time = rng.below(4 * cycle);
            }
        }
        if rng.chance(8) {
            panel.start = u64::MAX - rng.below(300);
        }
        panel
    }

    /// Now and then the capture's rate is one that is refused.
    pub fn spoil(&mut self, capture: &mut Capture) {
        if self.rng.chance(3) {
            capture.configuration.rate = Some(self.rng.pick(&REFUSED));
        }
    }
}
