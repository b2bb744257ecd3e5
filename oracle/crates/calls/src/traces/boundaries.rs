//! Short waveforms, and for each frame boundary a reset one before it, at it and one after it,
//! each of a refresh of its own; and refreshes whose end is held at the last cycle.

use oracle::capture::Capture;
use oracle::generate::bench::{Bench, Panel};
use oracle::generate::host::Host;
use oracle::generate::panel::{USUAL_MILLIVOLTS, matched};
use oracle::rng::Rng;

const FIRST_TABLE: u8 = 0x20;
/// Frames that follow the longest table.
const TAIL_FRAMES: u64 = 2;

type Tables = [Vec<u8>; 5];

/// The four frame counts of a group, at least one of them not 0, then its repeats.
fn group_timing(rng: &mut Rng) -> [u8; 5] {
    let mut timing = [0; 5].map(|_| rng.pick(&[0, 0, 1, 1, 2]));
    timing[rng.below(4) as usize] = 1;
    timing[4] = rng.pick(&[1, 1, 1, 2]);
    timing
}

fn table(rng: &mut Rng, timing: &[[u8; 5]]) -> Vec<u8> {
    timing
        .iter()
        .flat_map(|&[a, b, c, d, repeats]| [rng.byte(), a, b, c, d, repeats])
        .collect()
}

/// Tables of one group or two, most in one timing, VCOM's perhaps in its own; some are empty.
fn tables(rng: &mut Rng, own_vcom: bool) -> Tables {
    let groups = rng.pick(&[1, 1, 1, 2]);
    let shared: Vec<_> = (0..groups).map(|_| group_timing(rng)).collect();
    let mut tables = [0; 5].map(|_: u8| match rng.below(10) {
        0..=2 => Vec::new(),
        3 => {
            let own = [group_timing(rng)];
            table(rng, &own)
        }
        _ => table(rng, &shared),
    });
    if own_vcom {
        let groups = rng.pick(&[1, 1, 2, 3]);
        let own: Vec<_> = (0..groups).map(|_| group_timing(rng)).collect();
        tables[0] = table(rng, &own);
    }
    tables
}

/// A few pixels, a swing of a few frames, a period that leaves nanoseconds between boundaries or
/// none, and a start far from the last nanosecond.
fn panel(rng: Rng) -> Panel {
    let mut panel = matched(rng);
    let rng = &mut panel.rng;
    let of = &mut panel.configuration;
    (of.sources, of.gates) = (rng.between(1, 20) as u16, rng.between(1, 4) as u16);
    let period = match rng.below(4) {
        0 => rng.between(1, 3),
        1 => rng.between(4, 9),
        2 => rng.wide(44),
        _ => 1_000,
    };
    of.periods = [period; 32];
    panel.frames = rng.between(1, 6);
    of.full_swing = USUAL_MILLIVOLTS * period * panel.frames;
    panel.start = rng.wide(40);
    panel.pace = 0;
    panel
}

/// Out of reset, powered, the tables loaded, planes now and then anew, and a refresh begun.
fn begin(bench: &mut Bench, tables: &Tables) {
    let mirrors = bench.rng.pick(&[0x0C, 0x0C, 0x0C, 0x08, 0x04, 0x00]);
    bench.command(0x00, &[0x33 | mirrors]);
    let (sources, gates) = (bench.configuration.sources, bench.configuration.gates);
    let [height, width] = [gates, sources.next_multiple_of(8)].map(u16::to_be_bytes);
    if mirrors != 0x0C || bench.rng.chance(20) {
        bench.command(0x61, &[width[0], width[1], height[0], height[1]]);
    }
    if bench.rng.chance(30) {
        let interval = bench.rng.byte();
        bench.command(0x50, &[interval]);
    }
    for (command, bytes) in (FIRST_TABLE..).zip(tables) {
        if !bytes.is_empty() {
            bench.command(command, bytes);
        }
    }
    bench.command(0x04, &[]);
    settle(bench);
    for command in [0x10, 0x13] {
        if bench.rng.chance(25) {
            bench.command(command, &[]);
            let bytes = u64::from(sources.div_ceil(8) * gates);
            bench.noise(bytes.min(12));
        }
    }
    bench.command(0x12, &[]);
}

fn settle(bench: &mut Bench) {
    if let Some(end) = bench.deadline() {
        bench.advance_to(end);
    }
}

/// A refresh that a reset cuts, or follows, so many cycles after its start; none if that is more
/// than one cycle past its end.
fn cut_after(bench: &mut Bench, tables: &Tables, elapsed: u64) -> Option<()> {
    begin(bench, tables);
    let start = bench.now();
    let end = bench.deadline()?;
    bench.clock = start.saturating_add(elapsed);
    let within = bench.clock <= end.saturating_add(1);
    bench.assert_reset();
    bench.release_reset();
    settle(bench);
    within.then_some(())
}

/// One before, at, and one after the boundary of so many frames; the frames of the next boundary
/// that has a cycle of its own.
fn around(bench: &mut Bench, tables: &Tables, frames: u64) -> Option<u64> {
    let period = bench.period();
    let boundary = bench.board.cycles(frames * period);
    for elapsed in boundary.saturating_sub(1)..=boundary + 1 {
        cut_after(bench, tables, elapsed)?;
    }
    Some(bench.board.nanos(boundary) / period + 1)
}

/// Every boundary of a short waveform, start and end included.
pub fn each(rng: Rng, host: &mut Host) -> Capture {
    let panel = panel(rng);
    let start = panel.start;
    let mut bench = Bench::long(Panel {
        start,
        ..host.with(panel)
    });
    let own_vcom = bench.own_vcom;
    let tables = tables(&mut bench.rng, own_vcom);
    let mut frames = 0;
    while let Some(next) = around(&mut bench, &tables, frames) {
        frames = next;
    }
    bench.capture()
}

/// The start, and one boundary.
pub fn some(rng: Rng) -> Capture {
    let mut bench = Bench::long(panel(rng));
    let tables = tables(&mut bench.rng, false);
    let frames = bench.rng.between(1, 1 + TAIL_FRAMES);
    let _ = around(&mut bench, &tables, frames);
    bench.capture()
}

/// A refresh that begins so late that its end is held, whole or cut beside a boundary.
pub fn held(rng: Rng, host: &mut Host) -> Capture {
    let mut panel = host.with(panel(rng));
    let tables = tables(&mut panel.rng, panel.own_vcom);
    panel.configuration.power_on = 0;
    let mut bench = Bench::long(panel);
    let period = bench.period();
    let frames = bench.rng.below(8);
    let left = bench.board.cycles(frames * period);
    bench.clock = u64::MAX - (left + bench.rng.below(3));
    begin(&mut bench, &tables);
    match bench.rng.below(4) {
        0 => bench.advance_to(u64::MAX),
        1 => bench.advance_to(u64::MAX - 1),
        _ => {
            let whole = bench.rng.below(frames + 1) * period;
            let elapsed = bench.board.cycles(whole) + bench.rng.below(3);
            bench.clock = bench.now().saturating_add(elapsed.saturating_sub(1));
        }
    }
    bench.assert_reset();
    bench.release_reset();
    settle(&mut bench);
    bench.capture()
}
