//! Windows by 90: within the panel, past it, empty, at the RAM's far end, or held in two steps.

use crate::rng::Rng;

use super::bench::{Area, Bench, WHOLE_RAM};
use super::settings::{LAST_COLUMN, LAST_ROW, pair};

/// Partial mode with a window of its own, or back to the whole area.
pub fn partial(bench: &mut Bench) {
    if bench.rng.chance(25) {
        bench.command(0x92, &[]);
        bench.area = bench.active;
        return;
    }
    if bench.rng.chance(10) {
        two_steps(bench);
    } else {
        window(bench);
    }
    bench.command(0x91, &[]);
}

/// The two ends of a window over `size` lines from `base`: in order, past the panel, or crossed.
fn ends(rng: &mut Rng, base: u16, size: u16, last: u16) -> (u16, u16) {
    let mut within = |count: u16| rng.below(u64::from(count)) as u16;
    let (one, other) = (base + within(size), base + within(size));
    let far = within(1_024);
    match rng.below(20) {
        0 => ((one.max(other) + 8).min(last), one.min(other)),
        1..=2 => (one, far),
        3 => (far, last),
        4 => (last, one),
        _ => (one.min(other), one.max(other)),
    }
}

fn bytes(columns: (u16, u16), rows: (u16, u16), scan: u8) -> [u8; 9] {
    let [first_high, first, last_high, last] = pair(columns);
    let [top_high, top, bottom_high, bottom] = pair(rows);
    [
        first_high,
        first,
        last_high,
        last,
        top_high,
        top,
        bottom_high,
        bottom,
        scan,
    ]
}

/// 90, whole or with fewer or more bytes. In the whole RAM a mirrored panel lies at the far end.
fn window(bench: &mut Bench) {
    let (sources, gates) = (bench.configuration.sources, bench.configuration.gates);
    let mirrored = bench.active == WHOLE_RAM && bench.rng.chance(50);
    let (left, top) = match mirrored {
        true => (LAST_COLUMN + 1 - sources, LAST_ROW + 1 - gates),
        false => (0, 0),
    };
    let rng = &mut bench.rng;
    let columns = ends(rng, left, sources, LAST_COLUMN);
    let rows = ends(rng, top, gates, LAST_ROW);
    let bytes = bytes(columns, rows, rng.byte());
    let count = if rng.chance(92) {
        9
    } else {
        rng.below(12) as usize
    };
    bench.command(0x90, &bytes[..count.min(9)]);
    bench.noise(count.saturating_sub(9) as u64);
    bench.area = held(columns, rows);
}

fn held(columns: (u16, u16), rows: (u16, u16)) -> Area {
    let column = |value: u16| value.min(LAST_COLUMN);
    let row = |value: u16| value.min(LAST_ROW);
    Area {
        columns: (column(columns.0 & !7), column(columns.1 | 7)),
        rows: (row(rows.0), row(rows.1)),
    }
}

/// 90 with columns held to 799, then 90 with a few zeros: the low bits of 799 stay behind.
fn two_steps(bench: &mut Bench) {
    let rows = (0, bench.configuration.gates - 1);
    let far = 800 + bench.rng.below(224) as u16;
    let first = bench.rng.pick(&[4, 9]);
    bench.command(0x90, &bytes((far, 1_023), rows, 1)[..first]);
    let count = bench.rng.pick(&[1, 1, 2, 3, 3]);
    bench.command(0x90, &[0, 0, 0][..count]);
    let columns = match count {
        1 => (31, LAST_COLUMN),
        2 => (0, LAST_COLUMN),
        _ => (0, 31),
    };
    bench.area = Area { columns, rows };
}
