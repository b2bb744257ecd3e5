//! Cases of VCOM by its own clock (2026-08): rule 2, events of kind 6, and refusal 9. Every output is
//! worked by hand.
//!
//! The full swing is eight frames of 14,000 mV, so a frame moves a pixel by so many eighths: with
//! source code 2 (-14,000 mV, toward white) one eighth up where VCOM has 0, two where it has 1
//! (14,000 mV), none where it has 2 (-14,000 mV) or floats (3).

use crate::capture::{COLUMNS_REVERSED, Capture, Configuration, ROWS_REVERSED, VCOM_BY_FRAME};
use crate::script::{Script, example_panel};

use super::{Case, example};

/// The grey of so many eighths: 255 of them over 8, halves up.
const GREYS: [u8; 9] = [0, 32, 64, 96, 128, 159, 191, 223, 255];

const PERIOD: u64 = 1_000;
/// A refresh begins here where nothing else is said.
const START: u64 = 100;

fn eighths(flags: u8) -> Configuration {
    Configuration {
        flags: example_panel().flags | flags,
        full_swing: 8 * 14_000 * PERIOD,
        ..example_panel()
    }
}

/// VCOM's table, that of black pixels, and what comes of them.
struct Tables {
    /// The cases by rule 1 and by rule 2.
    names: [&'static str; 2],
    shows: &'static str,
    vcom: &'static [u8],
    pixels: &'static [u8],
    /// The eighths after each frame by rule 2, the start included: codes and sums in the comments.
    eighths: &'static [usize],
    /// The eighths at the end by rule 1.
    by_phase: usize,
    /// Frames of the longest table.
    longest: u64,
}

const SHORTER: Tables = Tables {
    names: ["rule-1-shorter", "rule-2-shorter"],
    shows: "VCOM ends after two of six frames, then its level is 0",
    // VCOM 2 2, then 0; source 2 2 2 2 2 2: up by 0 0 1 1 1 1
    vcom: &[0x80, 2, 0, 0, 0, 1],
    pixels: &[0x80, 6, 0, 0, 0, 1],
    eighths: &[0, 0, 0, 1, 2, 3, 4],
    // VCOM 2 in all six frames of the phase
    by_phase: 0,
    longest: 6,
};

const LONGER: Tables = Tables {
    names: ["rule-1-longer", "rule-2-longer"],
    shows: "VCOM goes on after the pixel's three frames, of which the last meets its second phase",
    // VCOM 2 2 1 1 1 1 1; source 2 2 2: up by 0 0 2
    vcom: &[0x90, 2, 5, 0, 0, 1],
    pixels: &[0x80, 3, 0, 0, 0, 1],
    eighths: &[0, 0, 0, 2, 2, 2, 2, 2],
    // VCOM 2 in all three
    by_phase: 0,
    longest: 7,
};

const REPEATED: Tables = Tables {
    names: ["rule-1-repeats", "rule-2-repeats"],
    shows: "VCOM's two frames run three times while a pixel's phase of five goes on",
    // VCOM 0 2 0 2 0 2; source 2 2 2 2 2: up by 1 0 1 0 1
    vcom: &[0x20, 1, 1, 0, 0, 3],
    pixels: &[0x80, 5, 0, 0, 0, 1],
    eighths: &[0, 1, 1, 2, 2, 3, 3],
    // VCOM 0 in all five
    by_phase: 5,
    longest: 6,
};

const GROUPS: Tables = Tables {
    names: ["rule-1-groups", "rule-2-groups"],
    shows: "groups of a pixel and of VCOM that do not lie beside each other, and a phase of no frame",
    // VCOM 1, no frame of its second code, 2 2, then 0; source 2 2 | 1 2: up by 2 0 -2 1
    vcom: &[0x48, 1, 0, 2, 0, 1],
    pixels: &[0x80, 1, 0, 0, 0, 2, 0x60, 1, 1, 0, 0, 1],
    eighths: &[0, 2, 2, 0, 1],
    // VCOM 1 1 | ended: up by 2 2 -1 1
    by_phase: 4,
    longest: 4,
};

const FLOATING: Tables = Tables {
    names: ["rule-1-floating", "rule-2-floating"],
    shows: "VCOM floats in the second and third of five frames, which take their time",
    // VCOM 0 3 3 0, then 0; source 2 2 2 2 2: up by 1 - - 1 1
    vcom: &[0x30, 1, 2, 1, 0, 1],
    pixels: &[0x80, 5, 0, 0, 0, 1],
    eighths: &[0, 1, 1, 1, 2, 3],
    // VCOM 0 in all five
    by_phase: 5,
    longest: 5,
};

const FLOATED: Tables = Tables {
    names: ["rule-1-floated", "rule-2-floated"],
    shows: "VCOM floats to its end, and has level 0 after it",
    // VCOM 3 3, then 0; source 2 2 2 2: up by - - 1 1
    vcom: &[0xC0, 2, 0, 0, 0, 1],
    pixels: &[0x80, 4, 0, 0, 0, 1],
    eighths: &[0, 0, 0, 1, 2],
    // VCOM 3 in all four
    by_phase: 0,
    longest: 4,
};

/// Tables, and the whole frames after which a reset cuts them.
const CUT: [(Tables, &str, u64); 7] = [
    (SHORTER, "rule-2-shorter-cut", 4),
    (LONGER, "rule-2-longer-cut", 3),
    (LONGER, "rule-2-longer-cut-late", 6),
    (REPEATED, "rule-2-repeats-cut", 4),
    (GROUPS, "rule-2-groups-cut", 2),
    (FLOATING, "rule-2-floating-cut", 3),
    (FLOATED, "rule-2-floated-cut", 3),
];

impl Tables {
    /// Loads them and begins a refresh.
    fn begin(&self, script: Script) -> Script {
        script
            .command(0x20, self.vcom)
            .command(0x24, self.pixels)
            .command(0x12, &[])
    }

    /// The rows of the two loads, neither of 42 bytes.
    fn rows(&self, at: u64) -> String {
        let [vcom, pixels] = [self.vcom.len(), self.pixels.len()];
        format!("diag {at} 13 32 {vcom} 0\ndiag {at} 13 36 {pixels} 0\n")
    }

    fn end(&self, start: u64) -> u64 {
        start + (self.longest + 2) * PERIOD
    }

    fn by_frame(&self) -> usize {
        self.eighths[self.eighths.len() - 1]
    }
}

/// The rows, and the first picture: from `start` to `end`, of so many eighths.
fn output(rows: &str, is_cut: bool, start: u64, end: u64, eighths: usize) -> String {
    let greys = [GREYS[eighths]; 8].map(|grey| grey.to_string()).join(" ");
    let cut = u8::from(is_cut);
    format!("{rows}dropped 0\nimage 8 1 1 full {cut} {start} {end}\n{greys}\n")
}

pub fn cases() -> Vec<Case> {
    let mut cases = wholes();
    cases.extend(cuts());
    cases.push(cut_at_a_rate());
    cases.extend(changes());
    cases.extend(barred());
    cases.extend(kept());
    cases.extend(refused());
    cases
}

fn wholes() -> Vec<Case> {
    let mut cases = Vec::new();
    for of in [SHORTER, LONGER, REPEATED, GROUPS, FLOATING, FLOATED] {
        let end = of.end(START);
        let [first, second] = of.names;
        for (name, flags, eighths, shows) in [
            (
                second,
                VCOM_BY_FRAME,
                of.by_frame(),
                format!("rule 2: {}", of.shows),
            ),
            (
                first,
                0,
                of.by_phase,
                format!("the tables of `{second}` by rule 1"),
            ),
        ] {
            let script = of.begin(Script::new(self::eighths(flags)).power_up());
            let must = output(&of.rows(START), false, START, end, eighths);
            let shows = format!("{shows}; worked by hand");
            cases.push(Case::new(name, shows, script.at(end).advance()).worked(must));
        }
    }
    cases
}

fn cuts() -> Vec<Case> {
    let mut cases = Vec::new();
    for (of, name, frames) in CUT {
        // a nanosecond before the next frame is whole
        let at = START + (frames + 1) * PERIOD - 1;
        let script = of.begin(Script::new(eighths(VCOM_BY_FRAME)).power_up());
        let rows = format!("{}diag {at} 15 0 0 0\n", of.rows(START));
        let must = output(&rows, true, START, at, of.eighths[frames as usize]);
        let shows = format!(
            "the refresh of `{}` cut after {frames} whole frames; worked by hand",
            of.names[1]
        );
        cases.push(Case::new(name, shows, script.at(at).assert_reset()).worked(must));
    }
    cases
}

/// At 3 Hz frames of 500 ms end after 1.5, 3, 4.5 and 6 cycles: three are whole after 5.
fn cut_at_a_rate() -> Case {
    let period = 500_000_000;
    let panel = Configuration {
        full_swing: 8 * 14_000 * period,
        periods: [period; 32],
        rate: Some(3),
        ..eighths(VCOM_BY_FRAME)
    };
    let ready = Script::new(panel)
        .command(0x00, &[0x3F])
        .command(0x04, &[])
        .at(1);
    let rows = format!("{}diag 6 15 0 0 0\n", REPEATED.rows(1));
    Case::new(
        "rule-2-rate-cut",
        "the refresh of `rule-2-repeats` at 3 Hz, cut at cycle 5: after three whole frames of 500 ms; worked by hand",
        REPEATED.begin(ready).at(6).assert_reset(),
    )
    .worked(output(&rows, true, 1, 6, REPEATED.eighths[3]))
}

/// A refresh of the repeated tables, ended by an advance.
fn refreshed(script: Script, start: u64) -> Script {
    let end = REPEATED.end(start);
    REPEATED.begin(script.at(start)).at(end).advance()
}

/// What `refreshed` prints behind earlier rows.
fn after(rows: &str, start: u64, eighths: usize) -> String {
    let rows = format!("{rows}{}", REPEATED.rows(start));
    output(&rows, false, start, REPEATED.end(start), eighths)
}

fn changes() -> Vec<Case> {
    let end = REPEATED.end(START);
    let (first, second) = (REPEATED.by_phase, REPEATED.by_frame());
    let begun = |flags: u8| REPEATED.begin(Script::new(eighths(flags)).power_up());
    let busy = format!("{}diag 2000 6 19 0 0\n", REPEATED.rows(START));
    let changed = |flags: u8, rule: u8| {
        let script = begun(flags).at(2_000).rule(rule).command(0x13, &[]);
        script.at(end).advance()
    };
    let again = begun(0).at(2_000).rule(2).at(end).rule(1);
    let rows = REPEATED.rows(START);
    // the first is whole by rule 2, the second by rule 1: 3 eighths and 5
    let both = begun(VCOM_BY_FRAME).at(end).rule(1);
    let twice = both.command(0x12, &[]).at(end + 8_000).advance();
    let whole = output(&rows, false, end, end + 8_000, second + first);
    vec![
        Case::new(
            "rule-changed-to-2-under-way",
            "rule 2 named in mid-refresh: the refresh ends by rule 1, and is still busy; worked by hand",
            changed(0, 2),
        )
        .worked(output(&busy, false, START, end, first)),
        Case::new(
            "rule-changed-to-1-under-way",
            "rule 1 named in mid-refresh: the refresh ends by rule 2; worked by hand",
            changed(VCOM_BY_FRAME, 1),
        )
        .worked(output(&busy, false, START, end, second)),
        Case::new(
            "rule-changed-at-the-end",
            "an event of kind 6 at a refresh's end ends it first; worked by hand",
            again,
        )
        .worked(output(&rows, false, START, end, first)),
        Case::new(
            "rule-changed-between-refreshes",
            "a refresh by rule 2, then rule 1 and one by that; worked by hand",
            twice,
        )
        .worked(whole.replace("image 8 1 1", "image 8 1 2")),
        Case::new(
            "rule-changed-back",
            "of two events of kind 6 before a refresh the later counts; worked by hand",
            refreshed(Script::new(eighths(0)).power_up().rule(2).rule(1), START),
        )
        .worked(after("", START, first)),
        Case::new(
            "rule-changed-in-a-command",
            "an event of kind 6 between a table's bytes closes no command: the table has six; worked by hand",
            Script::new(eighths(0))
                .power_up()
                .command(0x20, &REPEATED.vcom[..2])
                .rule(2)
                .data(&REPEATED.vcom[2..])
                .command(0x24, REPEATED.pixels)
                .rule(2)
                .command(0x12, &[])
                .at(end)
                .advance(),
        )
        .worked(output(&rows, false, START, end, second)),
    ]
}

/// Where other commands are refused, an event of kind 6 is not; 13 shows that they are.
fn barred() -> Vec<Case> {
    let second = REPEATED.by_frame();
    let busy = Script::new(eighths(0))
        .command(0x00, &[0x3F])
        .command(0x04, &[])
        .at(50)
        .rule(2)
        .command(0x13, &[]);
    let asleep = Script::new(eighths(0))
        .command(0x07, &[0xA5])
        .at(200)
        .rule(2)
        .command(0x13, &[])
        .at(300)
        .assert_reset();
    let in_reset = Script::new(eighths(0))
        .at(200)
        .assert_reset()
        .rule(2)
        .command(0x13, &[]);
    let up = |script: Script| {
        let script = script.at(310).release_reset();
        script.at(311).command(0x00, &[0x3F]).command(0x04, &[])
    };
    vec![
        Case::new(
            "rule-changed-while-busy",
            "an event of kind 6 while power rises counts; worked by hand",
            refreshed(busy, START),
        )
        .worked(after("diag 50 6 19 0 0\n", START, second)),
        Case::new(
            "rule-changed-asleep",
            "an event of kind 6 in deep sleep counts, and the reset that wakes keeps it; worked by hand",
            refreshed(up(asleep), 411),
        )
        .worked(after("diag 200 7 19 0 0\n", 411, second)),
        Case::new(
            "rule-changed-in-reset",
            "an event of kind 6 in reset counts; worked by hand",
            refreshed(up(in_reset), 411),
        )
        .worked(after("diag 200 8 19 0 0\n", 411, second)),
    ]
}

/// Every kind of reset keeps the rule.
fn kept() -> Vec<Case> {
    let second = REPEATED.by_frame();
    let soft = Script::new(eighths(VCOM_BY_FRAME))
        .command(0x00, &[0x3E])
        .at(1);
    let pin = Script::new(eighths(VCOM_BY_FRAME))
        .assert_reset()
        .at(1)
        .release_reset()
        .at(2);
    let up = |script: Script| script.command(0x00, &[0x3F]).command(0x04, &[]);
    // back to rule 1 before the reset, though the panel was made by rule 2
    let back = Script::new(eighths(VCOM_BY_FRAME))
        .rule(1)
        .assert_reset()
        .at(1)
        .release_reset()
        .at(2);
    vec![
        Case::new(
            "rule-kept-by-soft-reset",
            "rule 2 from making on stays after a soft reset; worked by hand",
            refreshed(up(soft), 101),
        )
        .worked(after("", 101, second)),
        Case::new(
            "rule-kept-by-reset",
            "rule 2 from making on stays after a reset by pin; worked by hand",
            refreshed(up(pin), 102),
        )
        .worked(after("", 102, second)),
        Case::new(
            "rule-1-kept-by-reset",
            "rule 1, named on a panel made by rule 2, stays after a reset by pin; worked by hand",
            refreshed(up(back), 102),
        )
        .worked(after("", 102, REPEATED.by_phase)),
    ]
}

fn refused() -> Vec<Case> {
    let with_flags = |flags: u8| {
        Capture {
            configuration: Configuration {
                flags,
                ..example_panel()
            },
            events: example().capture().events.clone(),
        }
        .encode()
    };
    let with_event = |kind: u8, value: u8| example().event(kind, value).file();
    let all = example_panel().flags | ROWS_REVERSED | COLUMNS_REVERSED | VCOM_BY_FRAME;
    let mut cases = vec![
        // the example with its columns from right to left: VCOM has no table, so its level is 0
        Case::of_file(
            "flags-15",
            "all four flags are accepted; worked by hand",
            with_flags(all),
        )
        .worked(
            "diag 100 13 34 6 0\ndropped 0\nimage 8 1 1 full 0 100 3100\n0 0 0 0 128 128 128 128\n",
        ),
    ];
    for (name, shows, file) in [
        ("refused-9-flags-16", "flag bit 4", with_flags(16)),
        (
            "refused-9-rule-3",
            "an event of kind 6 with value 3",
            with_event(6, 3),
        ),
        ("refused-9-kind-7", "event kind 7", with_event(7, 1)),
    ] {
        let shows = format!("{shows}; worked by hand");
        cases.push(Case::of_file(name, shows, file).worked("refused 9\n"));
    }
    cases
}
