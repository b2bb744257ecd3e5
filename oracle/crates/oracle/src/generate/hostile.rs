//! Hostile runs: any byte at any time, and more rows than are kept.

use crate::capture::Capture;

use super::bench::Bench;
use super::reader;
use super::window::partial;

/// Commands that the controller has.
const KNOWN: [u8; 52] = [
    0x00, 0x01, 0x02, 0x03, 0x04, 0x05, 0x06, 0x07, 0x10, 0x11, 0x12, 0x13, 0x15, 0x17, 0x20, 0x21,
    0x22, 0x23, 0x24, 0x25, 0x2A, 0x2B, 0x30, 0x40, 0x41, 0x42, 0x43, 0x44, 0x50, 0x51, 0x52, 0x60,
    0x61, 0x65, 0x70, 0x71, 0x72, 0x80, 0x81, 0x82, 0x90, 0x91, 0x92, 0xA0, 0xA1, 0xA2, 0xE0, 0xE1,
    0xE3, 0xE4, 0xE5, 0xE7,
];

/// Any bytes at any time, around page turns that mostly still work.
pub fn storm(mut bench: Bench) -> Capture {
    if bench.rng.chance(60) {
        reader::turns(&mut bench);
    }
    for _ in 0..bench.rng.between(5, 60) {
        gust(&mut bench);
    }
    if bench.rng.chance(40) {
        bench.assert_reset();
        reader::wake(&mut bench);
        reader::turns(&mut bench);
    }
    bench.capture()
}

fn gust(bench: &mut Bench) {
    match bench.rng.below(100) {
        0..=14 => short_noise(bench),
        15..=39 => known(bench),
        40..=59 => any_command(bench),
        60..=67 => reader::questions(bench),
        68..=75 => table_load(bench),
        76..=79 => reader::cut(bench),
        80..=85 => reader::wake(bench),
        86..=89 => bench.settle(),
        90..=92 => jump(bench),
        93 => bench.slip(),
        94 => bench.command(0x07, &[0xA5]),
        95 => reader::soft_reset(bench),
        96..=97 => bench.command(0x12, &[]),
        _ => partial(bench),
    }
}

fn short_noise(bench: &mut Bench) {
    let count = bench.rng.between(1, 6);
    bench.noise(count);
}

fn known(bench: &mut Bench) {
    let command = bench.rng.pick(&KNOWN);
    let count = bench.rng.pick(&[0, 1, 1, 2, 3, 4, 5, 9, 10]);
    bench.command(command, &[]);
    bench.noise(count);
}

fn any_command(bench: &mut Bench) {
    let command = bench.rng.byte();
    let count = bench.rng.below(3);
    bench.command(command, &[]);
    bench.noise(count);
}

/// 20 to 25 with 0 to 70 bytes.
fn table_load(bench: &mut Bench) {
    let command = bench.rng.between(0x20, 0x25) as u8;
    let count = bench.rng.below(71);
    bench.command(command, &[]);
    bench.noise(count);
}

/// The clock moves anywhere, ends included.
fn jump(bench: &mut Bench) {
    bench.clock = match bench.rng.below(6) {
        0 => u64::MAX,
        1 => 0,
        2 => bench.rng.wide(64),
        _ => {
            let ahead = bench.rng.wide(40);
            bench.clock.saturating_add(ahead)
        }
    };
}

/// More than 1,024 rows, with page turns before or after them.
pub fn flood(mut bench: Bench) -> Capture {
    reader::turns(&mut bench);
    let kind = bench.rng.below(3);
    for _ in 0..bench.rng.between(1_000, 1_300) {
        match kind {
            0 => bench.command(0xFF, &[]),
            1 => bench.command(0x61, &[0x01]),
            _ => any_command(&mut bench),
        }
    }
    reader::turns(&mut bench);
    bench.capture()
}
