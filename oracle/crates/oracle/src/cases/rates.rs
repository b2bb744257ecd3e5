//! Cases of the board's own clock (2026-05): times in cycles, refusal 13, and files with a rate.

use crate::capture::{Capture, Configuration, MOST_RATED_EVENTS, TRAILER_BYTES};
use crate::clock::GIGAHERTZ;
use crate::script::{Script, example_panel};

use super::{Case, EXAMPLE_OUTPUT, example};

const SECOND: u64 = 1_000_000_000;
const REFUSED: &str = "refused 13\n";

/// The example's panel on a board of this rate.
fn rated(rate: u64) -> Configuration {
    Configuration {
        rate: Some(rate),
        ..example_panel()
    }
}

/// The example's refresh: 100 ns of power on from `start`, then 3 frames of 1,000 ns, each half a
/// swing, from `ready`.
fn refresh(panel: Configuration, start: u64, ready: u64) -> Script {
    Script::new(panel)
        .at(start)
        .command(0x00, &[0x3F])
        .command(0x04, &[])
        .at(ready)
        .command(0x22, &[0x80, 0x01, 0x00, 0x00, 0x00, 0x01])
        .command(0x13, &[0xF0])
        .command(0x12, &[])
}

pub fn cases() -> Vec<Case> {
    let mut cases = times();
    cases.extend(cuts());
    cases.extend(refused());
    cases.extend(files());
    cases
}

/// At 3 Hz 100 ns and 3,000 ns are each a part of one cycle.
const THREE_HERTZ: &str = "\
diag 1 13 34 6 0
dropped 0
image 8 1 1 full 0 1 2
128 128 128 128 0 0 0 0
";

/// At 1,500,000 Hz a cycle is 666 2/3 ns: 100 ns are 1 cycle, 3,000 ns are 4.5 cycles and so 5.
const PART_OF_A_CYCLE: &str = "\
diag 1 13 34 6 0
diag 5 6 16 0 0
dropped 0
image 8 1 1 full 0 1 6
128 128 128 128 0 0 0 0
";

/// At 3 Hz three frames of 1 s are 9 cycles, of which the clock has 5.
const HELD: &str = "\
diag 18446744073709551610 13 34 6 0
diag 18446744073709551614 6 16 0 0
dropped 0
image 8 1 1 full 0 18446744073709551610 18446744073709551615
128 128 128 128 0 0 0 0
";

fn times() -> Vec<Case> {
    let slow = Configuration {
        full_swing: 28_000 * SECOND,
        periods: [SECOND; 32],
        ..rated(3)
    };
    let last = u64::MAX;
    vec![
        Case::new(
            "rate-3-hz",
            "the example at 3 Hz: power on and the refresh take a cycle each; worked by hand",
            refresh(rated(3), 0, 1).at(2).advance(),
        )
        .worked(THREE_HERTZ),
        Case::new(
            "rate-part-of-a-cycle",
            "at 1,500,000 Hz a refresh of 4.5 cycles takes 5: it is busy after 4; worked by hand",
            refresh(rated(1_500_000), 0, 1)
                .at(5)
                .command(0x10, &[])
                .at(6)
                .advance(),
        )
        .worked(PART_OF_A_CYCLE),
        Case::new(
            "rate-end-held",
            "at 3 Hz an end past 2^64 - 1 cycles is held there, and the refresh drives whole; worked by hand",
            refresh(slow, last - 6, last - 5)
                .at(last - 1)
                .command(0x10, &[])
                .at(last)
                .advance(),
        )
        .worked(HELD),
        Case::new(
            "rate-1-ghz",
            "the example with a rate of 1 GHz prints what it prints without; worked by hand",
            Script::new(rated(GIGAHERTZ)).events(&example()),
        )
        .worked(EXAMPLE_OUTPUT),
    ]
}

/// Cycles after the start, the whole frames then, and the grey: at 3 Hz frames of 500 ms end after
/// 1.5, 3, 4.5, 6 and 7.5 cycles, and the first three drive a quarter of the swing each.
const CUTS: [(&str, u64, u64, u8); 8] = [
    ("rate-cut-0", 0, 0, 0),
    ("rate-cut-1", 1, 0, 0),
    ("rate-cut-2", 2, 1, 64),
    ("rate-cut-3", 3, 2, 128),
    ("rate-cut-4", 4, 2, 128),
    ("rate-cut-5", 5, 3, 191),
    ("rate-cut-6", 6, 4, 191),
    ("rate-cut-7", 7, 4, 191),
];

/// Five frames from 1 to 9, 7.5 cycles rounded up, and a reset so many cycles after the start.
fn cut(cycles: u64) -> Script {
    let panel = Configuration {
        full_swing: 28_000 * SECOND,
        periods: [SECOND / 2; 32],
        ..rated(3)
    };
    Script::new(panel)
        .command(0x00, &[0x3F])
        .command(0x04, &[])
        .at(1)
        .command(0x24, &[0x80, 3, 0, 0, 0, 1])
        .command(0x12, &[])
        .at(1 + cycles)
        .assert_reset()
}

fn all_of(grey: u8) -> String {
    [grey; 8].map(|grey| grey.to_string()).join(" ")
}

fn cuts() -> Vec<Case> {
    let mut cases = Vec::new();
    for (name, cycles, frames, grey) in CUTS {
        let at = 1 + cycles;
        let output = format!(
            "diag 1 13 36 6 0\ndiag {at} 15 0 0 0\ndropped 0\nimage 8 1 1 full 1 1 {at}\n{}\n",
            all_of(grey)
        );
        let shows = format!(
            "at 3 Hz a reset at cycle {cycles} of 8 of a refresh, whole frames of 500 ms until then: {frames}; worked by hand"
        );
        cases.push(Case::new(name, shows, cut(cycles)).worked(output));
    }
    let output = format!(
        "diag 1 13 36 6 0\ndropped 0\nimage 8 1 1 full 0 1 9\n{}\n",
        all_of(191)
    );
    let shows =
        "at 3 Hz a reset at cycle 8 of 8: the refresh ended by itself first; worked by hand";
    cases.push(Case::new("rate-cut-8", shows, cut(8)).worked(output));
    cases
}

fn refused() -> Vec<Case> {
    let of = |panel: Configuration| Script::new(panel).events(&example());
    let no_period = |rate: u64| {
        let mut panel = rated(rate);
        panel.periods[31] = 0;
        panel
    };
    let crowded = Configuration {
        sources: 127,
        gates: 63,
        ..rated(0)
    };
    vec![
        Case::new(
            "refused-13-0",
            "a rate of 0 Hz; worked by hand",
            of(rated(0)),
        )
        .worked(REFUSED),
        Case::new(
            "refused-13-over",
            "a rate of 1,000,000,001 Hz; worked by hand",
            of(rated(GIGAHERTZ + 1)),
        )
        .worked(REFUSED),
        Case::new(
            "two-faults-4-13",
            "a period of 0 and a rate of 0 Hz: refusal 4",
            of(no_period(0)),
        ),
        Case::new(
            "two-faults-13-10",
            "a rate of 0 Hz and 8,001 pixels: refusal 13; worked by hand",
            of(crowded),
        )
        .worked(REFUSED),
    ]
}

fn full(events: usize) -> Vec<u8> {
    let example = example();
    let mut events_of = example.capture().events.clone();
    let last = events_of[events_of.len() - 1];
    events_of.resize(events, last);
    Capture {
        configuration: rated(GIGAHERTZ),
        events: events_of,
    }
    .encode()
}

fn files() -> Vec<Case> {
    let none = Script::new(rated(3)).file();
    let trailer = none.len() - TRAILER_BYTES;
    let mut half = none.clone();
    half.drain(trailer - 4..trailer);
    vec![
        Case::of_file(
            "rate-no-events",
            "a rate and no events, 328 bytes: the picture of making",
            none,
        ),
        Case::of_file(
            "refused-8-half-a-rate",
            "no events and 4 bytes of a rate: 324 bytes, which is neither 320 nor 328",
            half,
        ),
        Case::of_file(
            "events-6520-rate",
            "6,520 events fit with a rate",
            full(MOST_RATED_EVENTS),
        ),
        Case::of_file(
            "refused-8-6521-rate",
            "6,521 events do not",
            full(MOST_RATED_EVENTS + 1),
        ),
    ]
}
