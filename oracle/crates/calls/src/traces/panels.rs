//! Panels of the long traces: every size class, and swings up to the largest.

use oracle::capture::Configuration;
use oracle::generate::bench::Panel;
use oracle::generate::panel::{MOST_SWING, USUAL_MILLIVOLTS, extreme, matched};
use oracle::rng::Rng;
use oracle::script::x3_panel;

/// Swings from here on take another way through the arithmetic of grey.
const WIDE_SWING: u64 = 1 << 54;
const SMALL_SWINGS: [u64; 8] = [1, 2, 3, 14, 15, 254, 255, 510];

/// Frames of the X3's usual level, at its usual rate, that make a full swing.
const X3_FRAMES: u64 = 21;

const LARGE: [(u16, u16); 10] = [
    (800, 600),
    (792, 528),
    (799, 599),
    (800, 1),
    (1, 600),
    (793, 527),
    (400, 300),
    (640, 384),
    (250, 122),
    (128, 296),
];

fn side(rng: &mut Rng, most: u64) -> u16 {
    rng.between(1, most) as u16
}

pub fn small(rng: &mut Rng) -> (u16, u16) {
    match rng.below(100) {
        0..=9 => (1, 1),
        10..=44 => (side(rng, 9), side(rng, 5)),
        45..=89 => (side(rng, 40), side(rng, 16)),
        90..=96 => (side(rng, 130), side(rng, 60)),
        97..=98 => (side(rng, 4), side(rng, 600)),
        _ => (side(rng, 800), side(rng, 4)),
    }
}

pub fn large(rng: &mut Rng) -> (u16, u16) {
    if rng.chance(60) {
        rng.pick(&LARGE)
    } else {
        (side(rng, 800), side(rng, 600))
    }
}

/// A panel of `size`, its swing usual, tiny, above 2^54, the largest, or anything.
pub fn of_size(mut rng: Rng, size: (u16, u16)) -> Panel {
    let mut panel = match rng.below(10) {
        0..=4 => matched(rng),
        5 => tiny(rng),
        6..=7 => wide(rng),
        _ => extreme(rng),
    };
    (panel.configuration.sources, panel.configuration.gates) = size;
    panel
}

/// A swing that a frame of any level crosses, or nearly.
fn tiny(rng: Rng) -> Panel {
    let mut panel = matched(rng);
    panel.configuration.full_swing = match panel.rng.chance(50) {
        true => panel.rng.pick(&SMALL_SWINGS),
        false => panel.rng.between(1, 60_000),
    };
    panel.configuration.periods = [1; 32];
    panel
}

/// A swing from 2^54 on, some frames of the usual levels long.
fn wide(rng: Rng) -> Panel {
    let mut panel = matched(rng);
    let swing = match panel.rng.below(3) {
        0 => MOST_SWING,
        1 => panel.rng.between(WIDE_SWING, 4 * WIDE_SWING),
        _ => panel.rng.between(WIDE_SWING, MOST_SWING),
    };
    let period = swing / (USUAL_MILLIVOLTS * panel.frames);
    panel.configuration.full_swing = swing;
    panel.configuration.periods = [period; 32];
    panel.start = 0;
    panel
}

/// The X3 of either batch.
pub fn x3(mut rng: Rng) -> Panel {
    Panel {
        configuration: Configuration {
            variant: rng.below(2) as u8,
            ..x3_panel()
        },
        frames: X3_FRAMES,
        start: 0,
        pace: rng.below(2),
        own_vcom: false,
        rng,
    }
}
