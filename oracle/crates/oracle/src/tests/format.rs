//! The capture file: its ends and the order of refusals.

use crate::capture::{Capture, Configuration, MOST_EVENTS, MOST_RATED_EVENTS};
use crate::cases;
use crate::refusal::Refusal;
use crate::run;
use crate::script::{Script, example_panel};

fn refusal(file: &[u8]) -> Option<u8> {
    run::accept(file).err().map(Refusal::number)
}

#[test]
fn ten_times_the_count_is_exact() {
    let sound = Script::new(example_panel()).file();
    let mut file = vec![0; 4];
    file.extend(&sound[..312]);
    file.extend(4_u32.to_le_bytes());
    file.extend(429_496_730_u32.to_le_bytes());
    assert_eq!(file.len(), 324);
    assert_eq!(429_496_730_u32.wrapping_mul(10), 4);
    assert_eq!(refusal(&file), Some(8));
}

#[test]
fn six_thousand_five_hundred_and_twenty_one_events_fit() {
    let script = |count: usize| (0..count).fold(Script::new(example_panel()), |s, _| s.advance());
    assert_eq!(MOST_EVENTS, 6_521);
    assert_eq!(refusal(&script(6_521).file()), None);
    assert_eq!(refusal(&script(6_522).file()), Some(8));
}

fn rated(rate: u64) -> Configuration {
    Configuration {
        rate: Some(rate),
        ..example_panel()
    }
}

#[test]
fn with_a_rate_one_event_fewer_fits() {
    let file = |count: usize| {
        let script = (0..count).fold(Script::new(rated(7)), |script, _| script.advance());
        script.file()
    };
    assert_eq!(MOST_RATED_EVENTS, 6_520);
    assert_eq!(file(6_520).len(), 65_528);
    assert_eq!(refusal(&file(6_520)), None);
    assert_eq!(file(6_521).len(), 65_538);
    assert_eq!(refusal(&file(6_521)), Some(8));
}

#[test]
fn a_file_is_read_back_as_written() {
    let capture = cases::example().capture().clone();
    assert_eq!(Capture::read(&capture.encode()), Ok(capture.clone()));
    for rate in [0, 1, 1_000_000_000, u64::MAX] {
        let capture = Capture {
            configuration: rated(rate),
            ..capture.clone()
        };
        assert_eq!(Capture::read(&capture.encode()), Ok(capture));
    }
}

/// Of all tails just those of 320 and of 328 bytes are whole, whatever stands in them.
#[test]
fn two_lengths_are_whole() {
    for events in [0, 1, 14] {
        let count = 10 * events;
        for tail in 8..400_usize {
            let mut file = vec![0; count + tail];
            let trailer = file.len() - 8;
            file[trailer] = count as u8;
            file[trailer + 4] = events as u8;
            let whole = Capture::is_whole(&file);
            assert_eq!(whole, [320, 328].contains(&tail), "{events} and {tail}");
        }
    }
}

#[test]
fn every_shorter_or_longer_file_is_broken() {
    let mut file = cases::example().file();
    for length in 0..file.len() {
        assert_eq!(refusal(&file[..length]), Some(8), "length {length}");
    }
    file.push(0);
    assert_eq!(refusal(&file), Some(8));
}

#[test]
fn events_and_values_that_are_not_listed_are_bad() {
    for kind in 0..=255 {
        for value in 0..=255 {
            let listed = match kind {
                1 | 2 => true,
                3 | 5 => value == 0,
                4 => value < 2,
                6 => value == 1 || value == 2,
                _ => false,
            };
            let file = Script::new(example_panel()).event(kind, value).file();
            let expected = if listed {
                None
            } else {
                Some(Refusal::BadEvent)
            };
            assert_eq!(
                Capture::read(&file).err(),
                expected,
                "kind {kind} value {value}"
            );
        }
    }
}

#[test]
fn flags_up_to_15_are_listed() {
    for flags in 0..=255 {
        let panel = Configuration {
            flags,
            ..example_panel()
        };
        let bad = (flags > 15).then_some(9);
        assert_eq!(refusal(&Script::new(panel).file()), bad, "flags {flags}");
    }
}

#[test]
fn refusals_come_in_the_order_of_the_paper() {
    let mut panel = example_panel();
    (panel.sources, panel.gates) = (800, 600);
    let mut answers = Vec::new();
    let mut ask = |panel: &Configuration, kind: u8, extra: &[u8]| {
        let mut file = Script::new(panel.clone()).event(kind, 0).file();
        file.extend(extra);
        answers.push(refusal(&file).unwrap_or(0));
    };
    ask(&panel, 5, &[]);
    panel.rate = Some(0);
    ask(&panel, 5, &[]);
    panel.periods[7] = 0;
    ask(&panel, 5, &[]);
    panel.full_swing = 1 << 63;
    ask(&panel, 5, &[]);
    panel.sources = 801;
    ask(&panel, 5, &[]);
    panel.gates = 0;
    ask(&panel, 5, &[]);
    ask(&panel, 6, &[]);
    ask(&panel, 6, &[0]);
    assert_eq!(answers, [10, 13, 4, 3, 2, 1, 9, 8]);
}
