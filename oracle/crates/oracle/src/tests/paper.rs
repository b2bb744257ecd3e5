//! Document 01's example, and the lines of "Proved together" that the chip shows from outside.

use chips::probe;
use chips::uc8253::Plane;

use crate::capture::Configuration;
use crate::cases;
use crate::chip::Chip;
use crate::run::{self, Outcome};
use crate::script::{Script, example_panel};

fn outcome(script: &Script) -> Outcome {
    let (capture, chip) = run::accept(&script.file()).expect("accepted");
    run::events(chip, &capture.events, |_, _, _| ())
}

/// The chip after the script.
fn chip(script: &Script) -> Chip {
    let (capture, mut chip) = run::accept(&script.file()).expect("accepted");
    for &event in &capture.events {
        run::step(&mut chip, event);
    }
    chip
}

/// The columns of row 0 of the NEW plane that are set.
fn columns(script: &Script) -> Vec<u16> {
    let chip = chip(script);
    (0..800)
        .filter(|&x| chip.ram_bit(Plane::New, x, 0) == Some(true))
        .collect()
}

#[test]
fn the_example_prints_what_the_paper_says() {
    assert_eq!(run::run(&cases::example().file()), cases::EXAMPLE_OUTPUT);
}

/// One frame of source code `code`, positive toward white, a grey for each 100 mV.
fn hundreds_of_millivolts(initial_grey: u8, power: &[u8], code: u8) -> u8 {
    let panel = Configuration {
        flags: 0,
        initial_grey,
        full_swing: 25_500,
        periods: [1; 32],
        ..example_panel()
    };
    let script = Script::new(panel)
        .power_up()
        .command(0x01, power)
        .command(0x24, &[code << 6, 1, 0, 0, 0, 1])
        .command(0x12, &[])
        .at(200)
        .advance();
    outcome(&script).image.pixels[0]
}

#[test]
fn supply_levels() {
    let usual = [0x07, 0x17, 0x3A, 0x3A, 0x03];
    assert_eq!(hundreds_of_millivolts(0, &usual, 1), 140);
    assert_eq!(hundreds_of_millivolts(255, &usual, 2), 255 - 140);
    assert_eq!(hundreds_of_millivolts(0, &usual, 3), 30);
    assert_eq!(hundreds_of_millivolts(0, &usual, 0), 0);
    assert_eq!(hundreds_of_millivolts(0, &[0, 0, 0x3F, 0, 0], 1), 150);
    assert_eq!(hundreds_of_millivolts(0, &[0, 0, 0x40, 0, 0], 1), 24);
}

#[test]
fn greys_round_halves_up() {
    assert_eq!(probe::gray(1, 510), 1);
    assert_eq!(probe::gray(0, 510), 0);
}

#[test]
fn start_800_leaves_column_799() {
    let script = Script::new(example_panel())
        .command(0x65, &[0x03, 0x20, 0x00, 0x00])
        .command(0x13, &[0xFF, 0x00]);
    assert_eq!(columns(&script), [799]);
}

#[test]
fn window_of_columns_8_to_23() {
    let script = Script::new(example_panel())
        .command(0x90, &[0x00, 0x0F, 0x00, 0x10])
        .command(0x91, &[])
        .command(0x13, &[0xFF; 3]);
    assert_eq!(columns(&script), (8..24).collect::<Vec<u16>>());
}

#[test]
fn resolution_0_at_start_8_is_column_8() {
    let script = Script::new(example_panel())
        .command(0x65, &[0x00, 0x08, 0x00, 0x00])
        .command(0x61, &[0x00, 0x00, 0x00, 0x00])
        .command(0x13, &[0xFF]);
    assert_eq!(columns(&script), [8]);
}

#[test]
fn drives_meet_exactly_when_the_sums_span_the_swing() {
    for start in 0..=14 {
        assert_eq!(probe::walk(14, &[7, 7, -7], start), 7);
    }
    assert_eq!(probe::walk(15, &[7, 7, -7], 0), 7);
    assert_eq!(probe::walk(15, &[7, 7, -7], 15), 8);
}

#[test]
fn a_reset_after_2999_drives_two_frames_of_three() {
    let panel = Configuration {
        full_swing: 56_000_000,
        ..example_panel()
    };
    let script = Script::new(panel)
        .power_up()
        .command(0x24, &[0x80, 3, 0, 0, 0, 1])
        .command(0x12, &[])
        .at(3_099)
        .assert_reset();
    let image = outcome(&script).image;
    assert_eq!((image.interrupted, image.pixels[0]), (true, 128));
}

#[test]
fn empty_tables_last_two_frames() {
    let script = Script::new(example_panel()).power_up().command(0x12, &[]);
    let deadline = chip(&script).next_deadline().map(|end| end.get());
    assert_eq!(deadline, Some(2_100));
    let image = outcome(&script.at(2_100).advance()).image;
    assert_eq!((image.generation, image.pixels), (1, vec![0; 8]));
}

fn answers(command: u8, count: usize) -> Vec<Option<u8>> {
    let panel = Configuration {
        variant: 1,
        ..example_panel()
    };
    let script = Script::new(panel).command(command, &[]).reads(count);
    outcome(&script)
        .reads
        .iter()
        .map(|&(_, byte)| byte)
        .collect()
}

#[test]
fn the_uc8279d_reads() {
    let version = [
        Some(0x00),
        Some(0x03),
        Some(0x66),
        Some(0xFF),
        Some(0xFF),
        None,
        None,
    ];
    assert_eq!(answers(0x71, 2), [Some(0x13), None]);
    assert_eq!(answers(0x70, 7), version);
}
