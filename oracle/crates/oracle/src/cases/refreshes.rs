//! Cases of refreshes: frames cut by reset, directions, windows, VCOM, the copy of planes.

use crate::capture::{COLUMNS_REVERSED, Configuration, POSITIVE_DRIVES_BLACK, ROWS_REVERSED};
use crate::script::{Script, example_panel};

use super::Case;

/// A table of one frame toward white, and of three: a quarter of the swing each frame.
const ONE_WHITE: [u8; 6] = [0x80, 1, 0, 0, 0, 1];
const THREE_WHITE: [u8; 6] = [0x80, 3, 0, 0, 0, 1];
const TABLES: [u8; 4] = [0x21, 0x22, 0x23, 0x24];

/// A panel whose full swing is four frames of the default levels.
fn quarters() -> Configuration {
    Configuration {
        full_swing: 56_000_000,
        ..example_panel()
    }
}

/// A panel of 16 by 3 pixels, and the resolution that 61 sets for it.
fn sixteen_by_three(flags: u8) -> Script {
    let panel = Configuration {
        sources: 16,
        gates: 3,
        flags: POSITIVE_DRIVES_BLACK | flags,
        ..quarters()
    };
    Script::new(panel)
        .power_up()
        .command(0x61, &[0x00, 0x10, 0x00, 0x03])
}

/// A different number of frames to white for each of WW, KW, WK, KK.
fn stairs(script: Script) -> Script {
    TABLES
        .iter()
        .zip(1..)
        .fold(script, |script, (&table, frames)| {
            script.command(table, &[0x80, frames, 0, 0, 0, 1])
        })
}

const OLD: [u8; 6] = [0xCC, 0x01, 0x00, 0x02, 0x03, 0x03];
const NEW: [u8; 6] = [0xF0, 0x01, 0x80, 0x00, 0x00, 0x0F];

pub fn cases() -> Vec<Case> {
    let mut cases = cuts();
    cases.extend(directions());
    cases.extend(windows());
    cases.extend(vcom());
    cases.extend(walks());
    cases
}

/// Three frames begun at 100, cut by reset at `time`.
fn cut(time: u64) -> Script {
    Script::new(quarters())
        .power_up()
        .command(0x24, &THREE_WHITE)
        .command(0x12, &[])
        .at(time)
        .assert_reset()
        .at(time + 10)
        .release_reset()
}

fn cuts() -> Vec<Case> {
    vec![
        Case::new(
            "reset-before-frame",
            "reset 1 ns before the third frame ends: two frames are driven",
            cut(3_099),
        ),
        Case::new(
            "reset-on-frame",
            "reset exactly where the third frame ends: three frames are driven",
            cut(3_100),
        ),
        Case::new(
            "reset-at-start",
            "reset in the nanosecond of the start: a picture marked interrupted, no frame",
            cut(100),
        ),
        Case::new(
            "reset-at-end",
            "reset in the nanosecond of the end: the refresh ended by itself first",
            cut(5_100),
        ),
    ]
}

fn directions() -> Vec<Case> {
    let draw = |script: Script| {
        stairs(script)
            .command(0x10, &OLD)
            .command(0x13, &NEW)
            .command(0x12, &[])
            .at(9_000)
            .advance()
    };
    let mirror = |mode: u8| draw(sixteen_by_three(0).command(0x00, &[mode]));
    vec![
        Case::new(
            "upright",
            "WW, KW, WK and KK, nothing mirrored or reversed",
            mirror(0x3F),
        ),
        Case::new(
            "mirrored-columns",
            "bit 2 of 00 clear mirrors the columns",
            mirror(0x3B),
        ),
        Case::new(
            "mirrored-rows",
            "bit 3 of 00 clear mirrors the rows",
            mirror(0x37),
        ),
        Case::new(
            "reversed",
            "the panel's flags reverse rows and columns",
            draw(sixteen_by_three(ROWS_REVERSED | COLUMNS_REVERSED)),
        ),
    ]
}

/// A window set by `bytes` of 90, filled by `data` of 13, then a refresh.
fn windowed(bytes: &[u8], data: &[u8]) -> Script {
    stairs(sixteen_by_three(0))
        .command(0x90, bytes)
        .command(0x91, &[])
        .command(0x13, data)
        .command(0x12, &[])
        .at(9_000)
        .advance()
}

/// Sixteen by three with some registers set before one byte is written and driven.
fn one_byte(settings: &[(u8, [u8; 4])]) -> Script {
    settings
        .iter()
        .fold(stairs(sixteen_by_three(0)), |script, (command, data)| {
            script.command(*command, data)
        })
        .command(0x13, &[0xFF])
        .command(0x12, &[])
        .at(9_000)
        .advance()
}

fn windows() -> Vec<Case> {
    vec![
        Case::new(
            "partial-window",
            "90 and 91: only columns 8 to 15 of row 1 are written and driven",
            windowed(&[0, 8, 0, 8, 0, 1, 0, 1, 1], &[0xC0]),
        ),
        Case::new(
            "empty-columns",
            "first column above the last: a byte a row, nothing put, kind 10 at the fourth",
            windowed(&[0, 8, 0, 0, 0, 0, 0, 2, 1], &[0xFF; 5]),
        ),
        Case::new(
            "empty-rows",
            "first row above the last: kind 10 at the first byte",
            windowed(&[0, 0, 0, 8, 0, 2, 0, 1, 1], &[0xFF; 2]),
        ),
        Case::new(
            "window-column-31",
            "90 holds 800 to 799; a later 90 with the byte 00 alone leaves column 31",
            odd_window(),
        ),
        Case::new(
            "start-past-the-ram",
            "65 with 03 20 00 00 leaves column 799 only: no pixel of the panel is driven",
            one_byte(&[(0x65, [0x03, 0x20, 0x00, 0x00])]),
        ),
        Case::new(
            "zero-resolution",
            "61 with zeros counts as one column and one row, at 65's start 8, 1",
            one_byte(&[(0x61, [0; 4]), (0x65, [0x00, 0x08, 0x00, 0x01])]),
        ),
    ]
}

/// A window whose first column is no multiple of eight, on a panel of 40 by 1.
fn odd_window() -> Script {
    let panel = Configuration {
        sources: 40,
        ..quarters()
    };
    stairs(Script::new(panel).power_up())
        .command(0x61, &[0x00, 0x28, 0x00, 0x01])
        .command(0x90, &[3, 0x20, 3, 0x20, 0, 0, 0, 0, 1])
        .command(0x90, &[0x00])
        .command(0x91, &[])
        .command(0x13, &[0xFF])
        .command(0x12, &[])
        .at(9_000)
        .advance()
}

/// KK of two groups that drive white by one frame and by two, beside VCOM's bytes.
fn beside(vcom: &[u8]) -> Script {
    Script::new(quarters())
        .power_up()
        .command(0x20, vcom)
        .command(0x24, &[0x80, 1, 0, 0, 0, 1, 0x08, 0, 0, 1, 0, 2])
        .command(0x12, &[])
        .at(99_999)
        .advance()
}

fn vcom() -> Vec<Case> {
    vec![
        Case::new(
            "vcom-floating",
            "VCOM floats in the second group: its frames pass and drive nothing",
            beside(&[0x00, 1, 0, 0, 0, 1, 0x0C, 0, 0, 1, 0, 2]),
        ),
        Case::new(
            "vcom-shorter",
            "VCOM's table has one group: it takes the first frame's drive away, then counts as 0",
            beside(&[0x80, 1, 0, 0, 0, 1]),
        ),
        Case::new(
            "vcom-own-counts",
            "VCOM's code is that of the same group and phase, whatever its own counts",
            beside(&[0x80, 0, 9, 0, 0, 3, 0x40, 1, 0, 0, 0, 1]),
        ),
    ]
}

/// Six frames toward white, then one toward black.
fn held_each_frame() -> Script {
    Script::new(quarters())
        .power_up()
        .command(0x24, &[0x80, 6, 0, 0, 0, 1, 0x40, 1, 0, 0, 0, 1])
        .command(0x12, &[])
        .at(99_999)
        .advance()
}

/// Two refreshes that drive KW alone, the first of half the row, the second of the whole.
fn copying() -> Script {
    Script::new(quarters())
        .power_up()
        .command(0x50, &[0x39])
        .command(0x22, &ONE_WHITE)
        .command(0x13, &[0xF0])
        .command(0x12, &[])
        .at(3_100)
        .command(0x13, &[0xFF])
        .command(0x12, &[])
        .at(6_100)
        .advance()
}

fn undriven_grey() -> Script {
    let panel = Configuration {
        initial_grey: 200,
        full_swing: 3,
        ..example_panel()
    };
    Script::new(panel)
        .power_up()
        .command(0x12, &[])
        .at(2_100)
        .advance()
}

fn end_held() -> Script {
    Script::new(quarters())
        .power_up()
        .command(0x24, &THREE_WHITE)
        .at(u64::MAX - 10)
        .command(0x12, &[])
        .at(u64::MAX - 1)
        .advance()
        .at(u64::MAX)
        .advance()
}

fn walks() -> Vec<Case> {
    vec![
        Case::new(
            "held-each-frame",
            "six frames to white, then one back: held after each, not once at the end",
            held_each_frame(),
        ),
        Case::new(
            "n2ocp",
            "N2OCP on: after the first refresh OLD is NEW, so the second drives the other half",
            copying(),
        ),
        Case::new(
            "undriven-grey",
            "a refresh of empty tables: two frames long, and grey 200 of swing 3 becomes 170",
            undriven_grey(),
        ),
        Case::new(
            "end-held",
            "a refresh whose end is held at 2^64 - 1 drives all its frames there",
            end_held(),
        ),
    ]
}
