//! Waveform tables: groups matched with a full swing, VCOM beside them, and unusual ones.

use crate::rng::Rng;

use super::bench::Bench;

const TABLE_BYTES: usize = 42;
const GROUP_BYTES: usize = 6;
const LUTC: u8 = 0x20;
const LUTKK: u8 = 0x24;

/// The frame counts of a group's four phases, then its repeats.
type Timing = Vec<[u8; 5]>;

/// One group of about `aim` frames.
fn group_timing(rng: &mut Rng, aim: u64) -> [u8; 5] {
    let repeats = rng.pick(&[1, 1, 1, 2, 3, 4]);
    let mut left = aim.div_ceil(repeats).max(1);
    let mut group = [0; 5];
    group[4] = repeats as u8;
    for count in &mut group[..3] {
        let share = if rng.chance(40) {
            0
        } else {
            rng.between(0, left)
        };
        *count = share.min(255) as u8;
        left -= u64::from(*count);
    }
    group[3] = left.min(255) as u8;
    group[..4].rotate_left(rng.below(4) as usize);
    group
}

/// Groups that hold up to about two full swings of `frames` frames each.
fn timing(rng: &mut Rng, frames: u64) -> Timing {
    let count = rng.pick(&[1, 1, 1, 2, 2, 3, 4, 7]);
    let most = (2 * frames).div_ceil(count).max(1);
    (0..count)
        .map(|_| {
            let aim = rng.between(1, most);
            group_timing(rng, aim)
        })
        .collect()
}

/// Four level selects, most of them `lean`.
fn selects(rng: &mut Rng, lean: u8) -> u8 {
    (0..4).fold(0, |byte, _| {
        let code = if rng.chance(55) {
            lean
        } else {
            rng.below(4) as u8
        };
        byte << 2 | code
    })
}

fn table(timing: &Timing, mut selects: impl FnMut() -> u8) -> Vec<u8> {
    timing
        .iter()
        .flat_map(|&[a, b, c, d, repeats]| [selects(), a, b, c, d, repeats])
        .collect()
}

/// A table that no driver would send, of some whole groups.
fn unusual(rng: &mut Rng, timing: &Timing) -> Vec<u8> {
    let mut bytes = table(timing, || 0b10_01_10_11);
    let last = bytes.len() - GROUP_BYTES;
    match rng.below(6) {
        0 => bytes.fill(0),
        1 => bytes[last + 5] = 0,
        2 => bytes[last + 1..last + 5].fill(0),
        3 => {
            bytes[5] = 0;
            bytes.extend([0x95, 1, 2, 3, 4, 1]);
        }
        4 => {
            let codes = rng.byte();
            bytes = [codes, 255, 255, 255, 255, 255].repeat(7);
        }
        _ => bytes = (0..TABLE_BYTES).map(|_| rng.byte()).collect(),
    }
    bytes
}

/// VCOM's table beside pixel tables of `timing`.
fn vcom(rng: &mut Rng, timing: &Timing, frames: u64) -> Vec<u8> {
    match rng.below(20) {
        0..=6 => table(timing, || 0),
        7..=9 => table(timing, || {
            rng.pick(&[0x01, 0x10, 0x42, 0x24, 0x80, 0x55, 0xAA])
        }),
        10..=12 => table(timing, || rng.byte() | rng.pick(&[0xC0, 0x30, 0x0C, 0x03])),
        13..=15 => {
            let fewer = timing[..rng.below(timing.len() as u64) as usize].to_vec();
            let codes = rng.byte();
            table(&fewer, || codes)
        }
        16..=17 => {
            let other = self::timing(rng, frames);
            table(&other, || rng.byte())
        }
        18 => unusual(rng, timing),
        _ => Vec::new(),
    }
}

/// VCOM's table in a timing of its own: shorter, longer, or in other groups and repeats.
fn own_vcom(rng: &mut Rng, timing: &Timing, frames: u64) -> Vec<u8> {
    let lean = rng.pick(&[0, 1, 2, 3]);
    let mut own = match rng.below(4) {
        0 => timing.clone(),
        _ => self::timing(rng, frames),
    };
    for group in &mut own {
        match rng.below(4) {
            0 => group[4] = rng.between(1, 5) as u8,
            1 => group[rng.below(4) as usize] = rng.between(1, 2 * frames).min(255) as u8,
            2 => group[..4].rotate_left(rng.below(4) as usize),
            _ => {}
        }
    }
    table(&own, || selects(rng, lean))
}

/// Sends `table` under `command`, in one of the lengths that drivers send.
fn load(bench: &mut Bench, command: u8, table: &[u8]) {
    let mut bytes = table.to_vec();
    bytes.resize(TABLE_BYTES, 0);
    let count = match bench.rng.below(20) {
        0..=5 => TABLE_BYTES as u64,
        6..=16 => table.len().max(GROUP_BYTES) as u64,
        17..=18 => bench.rng.between(43, 60),
        _ => bench.rng.below(71),
    };
    bytes.truncate(count as usize);
    let more = count - bytes.len() as u64;
    bench.command(command, &bytes);
    bench.noise(more);
}

/// The bytes of one table, most often in the timing that all share.
fn one(rng: &mut Rng, command: u8, shared: &Timing, frames: u64, has_own_vcom: bool) -> Vec<u8> {
    let own = if rng.chance(70) {
        shared.clone()
    } else {
        timing(rng, frames)
    };
    let lean = rng.pick(&[1, 1, 2, 2, 3, 0]);
    match command {
        LUTC if has_own_vcom && rng.chance(70) => own_vcom(rng, shared, frames),
        LUTC => vcom(rng, shared, frames),
        _ if rng.chance(6) => unusual(rng, &own),
        _ => table(&own, || selects(rng, lean)),
    }
}

/// Five tables of 42 bytes, about `frames` frames to a full swing; VCOM's often in a timing of its
/// own.
pub fn five(rng: &mut Rng, frames: u64, has_own_vcom: bool) -> [Vec<u8>; 5] {
    let shared = timing(rng, frames);
    [0, 1, 2, 3, 4].map(|number| {
        let mut bytes = one(rng, LUTC + number, &shared, frames, has_own_vcom);
        bytes.resize(TABLE_BYTES, 0);
        bytes
    })
}

/// Loads the five tables, or some of them.
pub fn tables(bench: &mut Bench) {
    let (frames, own_vcom) = (bench.frames, bench.own_vcom);
    let shared = timing(&mut bench.rng, frames);
    let all = bench.rng.chance(70);
    for command in LUTC..=LUTKK {
        if !all && bench.rng.chance(50) {
            continue;
        }
        let bytes = one(&mut bench.rng, command, &shared, frames, own_vcom);
        load(bench, command, &bytes);
    }
}
