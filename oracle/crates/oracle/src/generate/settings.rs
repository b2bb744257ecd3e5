//! The registers a driver sets: mode, levels, area, interval and frame rate.

use crate::rng::Rng;

use super::bench::{Area, Bench};

pub const LAST_COLUMN: u16 = 799;
pub const LAST_ROW: u16 = 599;

pub fn pair((first, second): (u16, u16)) -> [u8; 4] {
    let [first_low, first_high] = first.to_le_bytes();
    let [second_low, second_high] = second.to_le_bytes();
    [first_high, first_low, second_high, second_low]
}

/// 00: KW mode with the tables from the registers, now and then mirrored or unfit for a refresh.
fn mode(bench: &mut Bench) {
    let rng = &mut bench.rng;
    let mut psr = 0x3F;
    if rng.chance(20) {
        psr &= !0x04;
    }
    if rng.chance(20) {
        psr &= !0x08;
    }
    if rng.chance(3) {
        psr &= !rng.pick(&[0x20, 0x10, 0x02, 0x30, 0x12]);
    }
    if rng.chance(10) {
        psr |= rng.byte() & 0xC0;
    }
    let second = rng.byte();
    let count = if rng.chance(70) { 1 } else { 2 };
    bench.command(0x00, &[psr, second][..count]);
}

/// 01: the supply levels.
fn levels(bench: &mut Bench) {
    let rng = &mut bench.rng;
    let mut power = [0x07, 0x17, 0x3A, 0x3A, 0x03];
    match rng.below(10) {
        0..=2 => return,
        3..=6 => {}
        7 => power[2..].fill(0x3F),
        _ => power.fill_with(|| rng.byte()),
    }
    let count = if rng.chance(80) { 5 } else { 4 };
    bench.command(0x01, &power[..count]);
}

/// What 61 says: the panel's own size, padded to whole bytes, or something else.
fn resolution(bench: &mut Bench) -> (u16, u16) {
    let padded = bench.configuration.sources.next_multiple_of(8);
    let gates = bench.configuration.gates;
    let rng = &mut bench.rng;
    match rng.below(100) {
        0..=84 => (padded, gates),
        85..=88 => (rng.below(1_024) as u16, rng.below(1_024) as u16),
        89..=91 => (padded / 2, gates.div_ceil(2)),
        92..=93 => (0, gates),
        94..=95 => (padded, 0),
        96 => (0, 0),
        _ => (1_023, 1_023),
    }
}

/// What 65 says.
fn start(rng: &mut Rng) -> (u16, u16) {
    match rng.below(10) {
        0..=1 => (0, 0),
        2..=6 => (8 * rng.below(3) as u16, rng.below(4) as u16),
        7 => (rng.below(1_024) as u16, rng.below(1_024) as u16),
        8 => (800, 0),
        _ => (1_023, 1_023),
    }
}

/// 61 and 65, each unless it keeps its reset value.
fn area(bench: &mut Bench) {
    let mut size = (LAST_COLUMN + 1, LAST_ROW + 1);
    let mut first = (0, 0);
    if bench.rng.chance(90) {
        size = resolution(bench);
        bench.command(0x61, &pair(size));
    }
    // Only a panel as wide as the RAM shows what 65 does at column 800.
    if bench.configuration.sources > LAST_COLUMN - 7 && bench.rng.chance(25) {
        first = (800, 0);
        bench.command(0x65, &pair(first));
    } else if bench.rng.chance(15) {
        first = start(&mut bench.rng);
        bench.command(0x65, &pair(first));
    }
    bench.active = held(first, size);
    bench.area = bench.active;
}

/// The area from `start` of `size`, held to the RAM; columns lose their three low bits.
fn held(start: (u16, u16), size: (u16, u16)) -> Area {
    let span = |first: u16, size: u16, last: u16| {
        let end = first + size.max(1) - 1;
        (first.min(last), end.min(last))
    };
    Area {
        columns: span(start.0 & !7, size.0 & !7, LAST_COLUMN),
        rows: span(start.1, size.1, LAST_ROW),
    }
}

/// 50: which bit is white, and whether NEW is copied to OLD.
fn interval(bench: &mut Bench) {
    let byte = bench.rng.byte();
    let second = bench.rng.byte();
    let takes_two = bench.configuration.variant == 0 && bench.rng.chance(50);
    bench.command(0x50, &[byte, second][..1 + usize::from(takes_two)]);
}

/// 30: the frame rate.
fn frame_rate(bench: &mut Bench) {
    let byte = bench.rng.byte();
    bench.pll = if bench.rng.chance(80) {
        byte & 0x1F
    } else {
        byte
    };
    bench.command(0x30, &[bench.pll]);
}

/// Commands that a driver sends and the model only counts.
fn others(bench: &mut Bench) {
    for _ in 0..bench.rng.below(4) {
        let (command, count) = bench.rng.pick(&[
            (0x03, 1),
            (0x05, 0),
            (0x06, 3),
            (0x06, 4),
            (0x25, 42),
            (0x2A, 2),
            (0x2B, 3),
            (0x41, 1),
            (0x42, 3),
            (0x52, 1),
            (0x60, 1),
            (0x80, 1),
            (0x82, 1),
            (0xE0, 1),
            (0xE1, 1),
            (0xE3, 1),
            (0xE4, 1),
            (0xE5, 1),
            (0xE7, 1),
        ]);
        bench.command(command, &[]);
        bench.noise(count);
    }
}

pub fn settings(bench: &mut Bench) {
    mode(bench);
    levels(bench);
    area(bench);
    if bench.rng.chance(70) {
        interval(bench);
    }
    if bench.rng.chance(70) {
        frame_rate(bench);
    }
    if bench.rng.chance(20) {
        others(bench);
    }
}
