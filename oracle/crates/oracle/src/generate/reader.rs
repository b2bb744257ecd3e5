//! Realistic runs: a driver initialises the panel, turns pages and switches it off.

use crate::capture::Capture;

use super::bench::{Area, Bench, WHOLE_RAM};
use super::settings::settings;
use super::tables::tables;
use super::window::partial;

const READ_COMMANDS: [u8; 10] = [0x11, 0x40, 0x43, 0x44, 0x51, 0x70, 0x71, 0x72, 0x81, 0xA2];

pub fn run(mut bench: Bench) -> Capture {
    if bench.rng.chance(4) {
        bench.noise(2);
    }
    if bench.rng.chance(20) {
        bench.assert_reset();
        wake(&mut bench);
    }
    turns(&mut bench);
    if bench.rng.chance(25) {
        switch_off(&mut bench);
    }
    if let Some(end) = bench.deadline()
        && bench.rng.chance(90)
    {
        bench.advance_to(end);
    }
    bench.capture()
}

/// Initialisation and a few page turns.
pub fn turns(bench: &mut Bench) {
    initialise(bench);
    for _ in 0..bench.rng.pick(&[1, 1, 2, 2, 3, 4]) {
        turn(bench);
    }
}

/// Settings, tables and supplies, in the order that drivers use.
pub fn initialise(bench: &mut Bench) {
    settings(bench);
    if bench.rng.chance(97) {
        tables(bench);
    }
    if bench.rng.chance(97) {
        bench.command(0x04, &[]);
        bench.settle();
    }
    if bench.rng.chance(3) {
        bench.command(0x04, &[]);
    }
}

/// Out of reset, with a command too early now and then.
pub fn wake(bench: &mut Bench) {
    if bench.rng.chance(20) {
        let command = bench.rng.byte();
        bench.command(command, &[0x3F]);
    }
    if bench.rng.chance(15) {
        bench.assert_reset();
    }
    bench.release_reset();
    if bench.rng.chance(20) {
        bench.command(0x00, &[0x3F]);
    }
    if bench.rng.chance(10) {
        bench.release_reset();
    }
    bench.settle();
    flags(bench, 30);
}

/// Reads 71 now and then, where the variant answers.
fn flags(bench: &mut Bench, percent: u64) {
    if bench.configuration.variant == 1 && bench.rng.chance(percent) {
        bench.command(0x71, &[]);
        bench.reads(1);
    }
}

/// One page: planes, a refresh, and its end or a reset that cuts it.
fn turn(bench: &mut Bench) {
    // A driver that leaves 61 out draws through windows.
    let windows = if bench.active == WHOLE_RAM { 60 } else { 25 };
    if bench.rng.chance(windows) {
        partial(bench);
    }
    if bench.rng.chance(60) {
        stream(bench, 0x10);
    }
    if bench.rng.chance(95) {
        stream(bench, 0x13);
    }
    if bench.rng.chance(15) {
        tables(bench);
    }
    if bench.rng.chance(8) {
        aside(bench);
    }
    flags(bench, 15);
    bench.command(0x12, &[]);
    flags(bench, 10);
    if bench.rng.chance(15) {
        while_busy(bench);
    }
    let cuts = if bench.configuration.rate.is_some() {
        30
    } else {
        12
    };
    if bench.rng.chance(cuts) {
        cut(bench);
        recover(bench);
    } else {
        bench.settle();
    }
    if bench.rng.chance(6) {
        bench.slip();
    }
}

/// After a reset: everything anew, and the page once more.
fn recover(bench: &mut Bench) {
    wake(bench);
    initialise(bench);
    if bench.rng.chance(80) {
        stream(bench, 0x13);
        bench.command(0x12, &[]);
        bench.settle();
    }
}

/// The pixel bytes that fill an area.
pub fn stream_bytes(area: Area) -> u64 {
    let span = |(first, last): (u16, u16)| u64::from(last.saturating_sub(first)) + 1;
    span(area.columns).div_ceil(8) * span(area.rows)
}

/// Pixel bytes of one pattern into the written area, now and then too few or too many.
pub fn stream(bench: &mut Bench, command: u8) {
    let whole = stream_bytes(bench.area);
    let most = if bench.rng.chance(5) { 1_000 } else { 80 };
    let count = match bench.rng.below(20) {
        0 => bench.rng.between(0, whole.min(most)),
        1..=2 => whole.min(most) + bench.rng.between(1, 3),
        _ => whole.min(most),
    };
    let pattern = bench.rng.below(4);
    let fill = bench.rng.byte();
    bench.command(command, &[]);
    for index in 0..count {
        let byte = match pattern {
            0 => fill,
            1 => (index as u8).wrapping_mul(fill | 1),
            _ => bench.rng.byte(),
        };
        bench.data(&[byte]);
    }
}

/// What a driver does besides turning pages.
pub fn aside(bench: &mut Bench) {
    match bench.rng.below(6) {
        0..=1 => questions(bench),
        2 => soft_reset(bench),
        3 => power_off(bench),
        4 => {
            let code = bench.rng.byte();
            bench.command(0x07, &[code]);
            bench.settle();
        }
        _ => settings(bench),
    }
}

/// A read command and several reads, often past what it has.
pub fn questions(bench: &mut Bench) {
    let command = bench.rng.pick(&READ_COMMANDS);
    let count = bench.rng.between(1, 8);
    bench.command(command, &[]);
    bench.reads(count);
    if bench.rng.chance(10) {
        bench.noise(2);
    }
    flags(bench, 50);
}

/// 00 with bit 0 clear, with bytes after it, and commands too early now and then.
pub fn soft_reset(bench: &mut Bench) {
    let first = bench.rng.byte() & !1;
    let later = bench.rng.below(4);
    bench.command(0x00, &[first]);
    bench.noise(later);
    if bench.rng.chance(30) {
        bench.command(0x04, &[]);
    }
    bench.settle();
    flags(bench, 50);
    initialise(bench);
}

/// Commands while the refresh runs: three are taken, the others not.
fn while_busy(bench: &mut Bench) {
    let command = bench
        .rng
        .pick(&[0x70, 0x71, 0x81, 0x12, 0x13, 0x02, 0x50, 0x07, 0x92]);
    let reads = bench.rng.below(3);
    bench.command(command, &[]);
    bench.noise(2);
    bench.reads(reads);
}

/// A reset at some cycle of the running refresh, often on a frame boundary or beside it.
pub fn cut(bench: &mut Bench) {
    let now = bench.now();
    let end = bench.deadline().unwrap_or(now).max(now);
    let period = bench.period();
    let board = bench.board;
    let frame = bench.rng.between(0, board.nanos(end - now) / period);
    let boundary = now.saturating_add(board.cycles(frame * period));
    let time = match bench.rng.below(10) {
        0..=2 => boundary,
        3..=4 => boundary.saturating_sub(1),
        5..=6 => boundary.saturating_add(1),
        7 => end.saturating_sub(1),
        _ => bench.rng.between(now, end),
    };
    bench.clock = time.clamp(now, end);
    bench.assert_reset();
}

/// 02, with 71 asked while the supplies fall and after.
fn power_off(bench: &mut Bench) {
    bench.command(0x02, &[]);
    flags(bench, 50);
    bench.settle();
    flags(bench, 50);
}

/// Supplies off, or deep sleep, with what a host may still try.
fn switch_off(bench: &mut Bench) {
    if bench.rng.chance(60) {
        power_off(bench);
    }
    if bench.rng.chance(10) {
        bench.command(0x12, &[]);
    }
    if bench.rng.chance(60) {
        bench.command(0x07, &[0xA5]);
        bench.settle();
        if bench.rng.chance(40) {
            bench.command(0x12, &[0x00]);
        }
        if bench.rng.chance(30) {
            bench.assert_reset();
            wake(bench);
            turns(bench);
        }
    }
}
