//! Refreshes of one pixel: what they are given, and how long they last and which grey they leave.

use crate::capture::{self, Configuration, Event, POSITIVE_DRIVES_BLACK, VCOM_BY_FRAME};
use crate::chip::Chip;
use crate::generate::tables;
use crate::rng::Rng;
use crate::run;
use crate::script::example_panel;
#[cfg(test)]
use crate::vcom::{self, Glass, Rule, Waveform};
#[cfg(test)]
use chips::probe;

/// What a row holds: the last two are the answers. No digit stands in it.
pub const RULED_HEAD: &str = "ruled RULE BLACK SWING GREY PERIOD, the three levels' bytes, TABLE \
CUT NS, five tables as a count and bytes, DURATION GREY";

/// The same of rule 1, whose number is left out.
pub const HEAD: &str = "refresh BLACK SWING GREY PERIOD, the three levels' bytes, TABLE CUT NS, \
five tables as a count and bytes, DURATION GREY";

const MOST_SWING: u64 = i64::MAX as u64;

/// What a refresh of one pixel is given.
struct Refresh {
    configuration: Configuration,
    /// The third to fifth byte of 01.
    levels: [u8; 3],
    /// 1 WW, 2 KW, 3 WK, 4 KK.
    table: u8,
    tables: [Vec<u8>; 5],
}

fn configuration(rng: &mut Rng, frames: u64) -> Configuration {
    let period = match rng.below(10) {
        0 => rng.edgy(&[1, 2, u64::MAX - 1, u64::MAX], 1, u64::MAX),
        1..=3 => rng.between(1, 100),
        _ => rng.between(1_000, 20_000_000),
    };
    let swing = match rng.below(10) {
        0 => rng.edgy(&[1, 2, MOST_SWING - 1, MOST_SWING], 1, MOST_SWING),
        _ => period
            .saturating_mul(frames)
            .saturating_mul(rng.between(8_000, 16_000)),
    };
    Configuration {
        flags: rng.pick(&[0, POSITIVE_DRIVES_BLACK]),
        sources: 1,
        initial_grey: rng.byte(),
        full_swing: swing.clamp(1, MOST_SWING),
        power_on: 0,
        periods: [period; 32],
        ..example_panel()
    }
}

/// By rule 1; of rule 2 where VCOM's own timing is drawn.
fn draw(rng: &mut Rng, own_vcom: bool) -> Refresh {
    let frames = rng.between(1, 40);
    Refresh {
        configuration: configuration(rng, frames),
        levels: match rng.below(4) {
            0 => [rng.byte(), rng.byte(), rng.byte()],
            _ => [0x3A, 0x3A, 0x03],
        },
        table: rng.between(1, 4) as u8,
        tables: tables::five(rng, frames, own_vcom),
    }
}

fn met(chip: &mut Chip, time: u64, kind: u8, value: u8) {
    run::step(chip, Event { time, kind, value });
}

fn command(chip: &mut Chip, command: u8, data: &[u8]) {
    met(chip, 0, capture::COMMAND, command);
    for &byte in data {
        met(chip, 0, capture::DATA, byte);
    }
}

/// The chip with the refresh just begun, at 0.
fn begun(refresh: &Refresh) -> Chip {
    let mut chip = run::make_any(&refresh.configuration).expect("the configuration is in range");
    let [third, fourth, fifth] = refresh.levels;
    command(&mut chip, 0x00, &[0x3F]);
    command(&mut chip, 0x01, &[0x07, 0x17, third, fourth, fifth]);
    command(&mut chip, 0x04, &[]);
    for (number, table) in (0x20..).zip(&refresh.tables) {
        command(&mut chip, number, table);
    }
    let white = |is| if is { 0x80 } else { 0x00 };
    command(&mut chip, 0x10, &[white(matches!(refresh.table, 1 | 3))]);
    command(&mut chip, 0x13, &[white(matches!(refresh.table, 1 | 2))]);
    command(&mut chip, 0x12, &[]);
    chip
}

/// A time before the refresh's end, most often at or beside a frame's.
fn cut(rng: &mut Rng, period: u64, duration: u64) -> u64 {
    let frame = rng.below((duration / period).max(1)).saturating_mul(period);
    match rng.below(4) {
        0 => frame,
        1 => frame.saturating_sub(1),
        2 => frame.saturating_add(1).min(duration - 1),
        _ => rng.below(duration),
    }
}

/// The numbers of a table: how many, and the bytes up to the last that is not 0.
fn listed(table: &[u8]) -> String {
    let count = table
        .iter()
        .rposition(|&byte| byte != 0)
        .map_or(0, |last| last + 1);
    let mut words = vec![count.to_string()];
    words.extend(table[..count].iter().map(u8::to_string));
    words.join(" ")
}

/// A refresh by rule 1.
pub fn row(rng: &mut Rng) -> String {
    let refresh = draw(rng, false);
    format!("refresh {}", answered(rng, &refresh))
}

/// A refresh by either rule, most by rule 2.
pub fn ruled_row(rng: &mut Rng) -> String {
    let mut refresh = draw(rng, true);
    if rng.chance(80) {
        refresh.configuration.flags |= VCOM_BY_FRAME;
    }
    let rule = refresh.configuration.rule().number();
    format!("ruled {rule} {}", answered(rng, &refresh))
}

/// The grey that a refresh of the first so many frames, or of all, leaves, walked from the bytes
/// that were loaded.
#[cfg(test)]
fn walked(refresh: &Refresh, rule: Rule, frames: Option<u64>) -> u8 {
    let of = &refresh.configuration;
    let tables = refresh.tables.each_ref().map(|table| &table[..]);
    let waveform = Waveform::read(tables, refresh.levels, of.periods[0]);
    let glass = Glass {
        swing: i64::try_from(of.full_swing).expect("it is in range"),
        positive_drives_black: of.flag(POSITIVE_DRIVES_BLACK),
    };
    let drives = waveform.drives(usize::from(refresh.table), rule, glass, frames);
    let start = probe::level(of.initial_grey, glass.swing);
    probe::gray(vcom::walk(&drives, glass.swing, start), glass.swing)
}

/// A refresh by a rule through the chip, whole or cut, and walked from its bytes: both greys, and
/// what the walk by the other rule leaves.
#[cfg(test)]
pub fn both_ways(rng: &mut Rng, rule: Rule) -> [u8; 3] {
    let mut refresh = draw(rng, true);
    if rule == Rule::ByFrame {
        refresh.configuration.flags |= VCOM_BY_FRAME;
    }
    let Ended { cut, grey, .. } = ended(rng, &refresh);
    let frames = cut.map(|elapsed| elapsed / refresh.configuration.periods[0]);
    let other = Rule::of(rule == Rule::ByPhase);
    [
        grey,
        walked(&refresh, rule, frames),
        walked(&refresh, other, frames),
    ]
}

/// How a refresh ended: when reset cut it, if it did, its duration and the grey.
struct Ended {
    cut: Option<u64>,
    duration: u64,
    grey: u8,
}

/// The refresh through the chip, whole or cut.
fn ended(rng: &mut Rng, refresh: &Refresh) -> Ended {
    let mut chip = begun(refresh);
    let duration = chip.next_deadline().expect("the refresh runs").get();
    let period = refresh.configuration.periods[0];
    let cut = rng.chance(60).then(|| cut(rng, period, duration));
    match cut {
        Some(elapsed) => met(&mut chip, elapsed, capture::RESET, 1),
        None => met(&mut chip, duration, capture::ADVANCE, 0),
    }
    let image = chip.panel_image();
    assert_eq!((image.generation, image.interrupted), (1, cut.is_some()));
    Ended {
        cut,
        duration,
        grey: image.pixels[0],
    }
}

/// What a refresh is given, its duration and its grey.
fn answered(rng: &mut Rng, refresh: &Refresh) -> String {
    let Ended {
        cut,
        duration,
        grey,
    } = ended(rng, refresh);
    let Configuration {
        flags,
        full_swing,
        initial_grey,
        periods,
        ..
    } = refresh.configuration;
    let [third, fourth, fifth] = refresh.levels;
    format!(
        "{} {full_swing} {initial_grey} {} {third} {fourth} {fifth} {} {} {} {} {duration} {grey}",
        u8::from(flags & POSITIVE_DRIVES_BLACK != 0),
        periods[0],
        refresh.table,
        u8::from(cut.is_some()),
        cut.unwrap_or(0),
        refresh
            .tables
            .each_ref()
            .map(|table| listed(table))
            .join(" "),
    )
}
