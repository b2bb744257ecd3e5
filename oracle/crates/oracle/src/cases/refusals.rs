//! Cases of refusals: one for each number, and two faults at once.

use crate::capture::{Capture, Configuration, MOST_EVENTS};
use crate::script::example_panel;

use super::{Case, example};

/// The example with another configuration.
fn with(configuration: Configuration) -> Vec<u8> {
    Capture {
        configuration,
        events: example().capture().events.clone(),
    }
    .encode()
}

/// The example with one more event, at its end.
fn with_event(configuration: Configuration, kind: u8, value: u8) -> Vec<u8> {
    let mut capture = example().event(kind, value).capture().clone();
    capture.configuration = configuration;
    capture.encode()
}

fn no_period() -> Configuration {
    let mut panel = example_panel();
    panel.periods[31] = 0;
    panel
}

fn of_size(sources: u16, gates: u16) -> Configuration {
    Configuration {
        sources,
        gates,
        ..example_panel()
    }
}

fn of_swing(full_swing: u64) -> Configuration {
    Configuration {
        full_swing,
        ..example_panel()
    }
}

pub fn cases() -> Vec<Case> {
    let mut cases = configurations();
    cases.extend(files());
    cases.extend(two_faults());
    cases
}

fn configurations() -> Vec<Case> {
    let variant = Configuration {
        variant: 2,
        ..example_panel()
    };
    vec![
        Case::of_file("refused-1", "no gate", with(of_size(8, 0))),
        Case::of_file("refused-2", "801 sources", with(of_size(801, 1))),
        Case::of_file("refused-3", "a swing of 2^63", with(of_swing(1 << 63))),
        Case::of_file(
            "refused-4",
            "the last of the 32 periods is 0",
            with(no_period()),
        ),
        Case::of_file("refused-9-variant", "variant 2", with(variant)),
        Case::of_file(
            "refused-10",
            "127 by 63, which is 8,001 pixels",
            with(of_size(127, 63)),
        ),
        Case::of_file(
            "pixels-8000",
            "100 by 80 pixels are accepted",
            with(of_size(100, 80)),
        ),
        Case::of_file(
            "swing-largest",
            "a swing of 2^63 - 1 is accepted",
            with(of_swing(i64::MAX as u64)),
        ),
    ]
}

/// The example's configuration behind `events` zero bytes, with a trailer of its own.
fn trailed(events: usize, offset: u32, count: u32) -> Vec<u8> {
    let sound = example().file();
    let mut file = vec![0; events];
    file.extend(&sound[sound.len() - 320..sound.len() - 8]);
    file.extend(offset.to_le_bytes());
    file.extend(count.to_le_bytes());
    file
}

fn full(events: usize) -> Vec<u8> {
    let mut capture = example().capture().clone();
    let last = capture.events[capture.events.len() - 1];
    capture.events.resize(events, last);
    capture.encode()
}

fn files() -> Vec<Case> {
    let mut cut_short = example().file();
    cut_short.pop();
    vec![
        Case::of_file("refused-8", "the example less its last byte", cut_short),
        Case::of_file(
            "empty-evening",
            "a file of no bytes: no events; worked by hand",
            Vec::new(),
        )
        .worked("no events\n"),
        Case::of_file("refused-8-1", "a file of one byte, a zero", vec![0]),
        Case::of_file("refused-8-319", "a file of 319 zeros", vec![0; 319]),
        Case::of_file(
            "refused-8-wrap",
            "offset 4, count 429,496,730, length 324: ten times the count wraps at 32 bits",
            trailed(4, 4, 429_496_730),
        ),
        Case::of_file("events-6521", "6,521 events fit", full(MOST_EVENTS)),
        Case::of_file(
            "refused-8-6522",
            "6,522 events do not",
            full(MOST_EVENTS + 1),
        ),
        Case::of_file(
            "refused-9-kind",
            "event kind 6 with value 0",
            with_event(example_panel(), 6, 0),
        ),
        Case::of_file(
            "refused-9-read",
            "a read with value 1",
            with_event(example_panel(), 3, 1),
        ),
        Case::of_file(
            "refused-9-reset",
            "a reset with value 2",
            with_event(example_panel(), 4, 2),
        ),
    ]
}

fn two_faults() -> Vec<Case> {
    let mut broken = with_event(example_panel(), 0, 0);
    broken.push(0);
    let mut no_swing = no_period();
    no_swing.full_swing = 0;
    let mut crowded = no_period();
    (crowded.sources, crowded.gates) = (800, 600);
    let unlisted = with_event(of_size(0, 1), 6, 0);
    [
        (
            "two-faults-8-9",
            "a byte too many and event kind 0: refusal 8",
            broken,
        ),
        (
            "two-faults-9-1",
            "event kind 6 with value 0 and no source: refusal 9",
            unlisted,
        ),
        (
            "two-faults-1-2",
            "no source and 601 gates: refusal 1",
            with(of_size(0, 601)),
        ),
        (
            "two-faults-3-4",
            "swing 0 and a period of 0: refusal 3",
            with(no_swing),
        ),
        (
            "two-faults-4-10",
            "a period of 0 and 480,000 pixels: refusal 4",
            with(crowded),
        ),
    ]
    .map(|(name, shows, file)| Case::of_file(name, shows, file))
    .into()
}
