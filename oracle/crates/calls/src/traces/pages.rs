//! Traces of many refreshes: with little between them, by page turns, and of whole pages.

use oracle::capture::Capture;
use oracle::generate::bench::Bench;
use oracle::generate::reader;
use oracle::generate::tables::tables;
use oracle::generate::window::partial;

const DTM1: u8 = 0x10;
const DRF: u8 = 0x12;
const DTM2: u8 = 0x13;
/// Where counts of data bytes and of reads are held.
const MOST_COUNTED: u64 = 65_535;

/// Something changes between two refreshes, most often nothing.
fn change(bench: &mut Bench) {
    match bench.rng.below(40) {
        0..=3 => interval(bench),
        4..=6 => partial(bench),
        7..=9 => reader::stream(bench, DTM2),
        10 => reader::stream(bench, DTM1),
        11 => tables(bench),
        12..=13 => reader::questions(bench),
        14 => reader::aside(bench),
        _ => {}
    }
}

/// 50: which bit is white, and whether NEW is copied to OLD.
fn interval(bench: &mut Bench) {
    let byte = bench.rng.byte();
    bench.command(0x50, &[byte]);
}

/// Powered again after whatever took the supplies down, a refresh, and its end or a reset.
fn refresh(bench: &mut Bench) {
    bench.command(DRF, &[]);
    if bench.rng.chance(8) {
        reader::cut(bench);
        reader::wake(bench);
        reader::initialise(bench);
    } else {
        bench.settle();
    }
}

fn many(mut bench: Bench, count: u64) -> Capture {
    reader::initialise(&mut bench);
    reader::stream(&mut bench, DTM1);
    reader::stream(&mut bench, DTM2);
    for _ in 0..count {
        change(&mut bench);
        refresh(&mut bench);
    }
    bench.capture()
}

pub fn refreshes(mut bench: Bench) -> Capture {
    let count = bench.rng.between(20, 80);
    many(bench, count)
}

pub fn few_refreshes(mut bench: Bench) -> Capture {
    let count = bench.rng.between(2, 5);
    many(bench, count)
}

/// Page after page, as drivers turn them.
pub fn turns(mut bench: Bench) -> Capture {
    for _ in 0..bench.rng.between(3, 12) {
        reader::turns(&mut bench);
    }
    bench.capture()
}

/// Some read commands with their reads.
fn ask(bench: &mut Bench) {
    for _ in 0..bench.rng.between(1, 4) {
        reader::questions(bench);
    }
}

/// Read commands before and during a refresh of empty tables.
pub fn questions(mut bench: Bench) -> Capture {
    ask(&mut bench);
    bench.command(0x00, &[0x3F]);
    bench.command(0x04, &[]);
    bench.settle();
    bench.command(DRF, &[]);
    ask(&mut bench);
    bench.settle();
    bench.capture()
}

/// Commands whose data bytes or reads go past the count that is held.
pub fn counts(mut bench: Bench) -> Capture {
    let command = bench
        .rng
        .pick(&[0x13, 0x15, 0x20, 0x24, 0x61, 0x70, 0x71, 0x90]);
    let count = MOST_COUNTED - 2 + bench.rng.below(5);
    bench.command(command, &[]);
    if bench.rng.chance(50) {
        bench.noise(count);
    } else {
        bench.reads(count);
    }
    bench.noise(1);
    bench.reads(2);
    reader::turns(&mut bench);
    bench.capture()
}

/// Pixel bytes for the whole written area: noise, or runs of one byte.
fn plane(bench: &mut Bench, command: u8) {
    let whole = reader::stream_bytes(bench.area);
    bench.command(command, &[]);
    if bench.rng.chance(50) {
        bench.noise(whole);
        return;
    }
    let mut left = whole;
    while left > 0 {
        let run = bench.rng.between(1, 300).min(left);
        let byte = bench.rng.pick(&[0x00, 0xFF, 0xF0, 0xAA]);
        bench.data(&vec![byte; run as usize]);
        left -= run;
    }
}

/// Whatever the settings were, the next refresh is carried out.
fn make_sure(bench: &mut Bench) {
    let mirrors = bench.rng.pick(&[0x0C, 0x0C, 0x08, 0x04, 0x00]);
    bench.command(0x00, &[0x33 | mirrors]);
    bench.command(0x04, &[]);
    bench.settle();
}

/// A few whole pages, with refreshes of windows and of the same page between them.
pub fn whole(mut bench: Bench) -> Capture {
    reader::initialise(&mut bench);
    make_sure(&mut bench);
    for _ in 0..bench.rng.between(1, 2) {
        if bench.rng.chance(30) {
            partial(&mut bench);
        }
        let planes: &[u8] = match bench.rng.below(3) {
            0 => &[DTM1, DTM2],
            _ => &[DTM2],
        };
        for &command in planes {
            plane(&mut bench, command);
        }
        for _ in 0..bench.rng.between(1, 4) {
            change(&mut bench);
            refresh(&mut bench);
        }
    }
    bench.capture()
}
