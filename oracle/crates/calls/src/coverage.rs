//! What a run of the comparison covered, as a table.

use std::collections::BTreeMap;
use std::fmt::Write;

use chips::uc8253::RefreshKind;
use oracle::capture::{self, Configuration, Event};
use oracle::clock::{Clock, GIGAHERTZ};
use oracle::rows::KIND_WORDS;

use crate::beside::{Beside, deadline};
use crate::compare::Watch;
use crate::steps::Step;
use crate::traces;

type Section = (&'static str, &'static [&'static str]);

const TRACES: &str = "traces";
const PANELS: &str = "panels by size";
const SETTINGS: &str = "panels by setting";
const SINGLE: &str = "events by single calls";
const IN_RUNS: &str = "events by `run`";
const REFRESHES: &str = "refreshes";
const STARTS: &str = "refreshes begun by single calls";
const RESETS: &str = "resets during or at the end of a refresh, by single calls";
const ROWS: &str = "rows by kind";

const EVENTS: &[&str] = &["command", "data", "read", "reset", "advance", "rule"];

const SECTIONS: [Section; 9] = [
    (TRACES, &traces::NAMES),
    (
        PANELS,
        &[
            "1 by 1",
            "2 to 99 pixels",
            "100 to 999 pixels",
            "1,000 to 8,000 pixels",
            "8,001 to 100,000 pixels",
            "above 100,000 pixels",
            "792 by 528",
            "800 by 600",
            "refused",
        ],
    ),
    (
        SETTINGS,
        &[
            "UC8253",
            "UC8279d",
            "rows reversed",
            "columns reversed",
            "positive drives black",
            "VCOM by rule 2",
            "swing below 2^16",
            "swing from 2^16, below 2^54",
            "swing from 2^54",
            "swing 2^63 - 1",
            "a period of 1",
            "a period from 2^40",
            "no rate",
            "a rate below 1,000 Hz",
            "a rate from 1,000 Hz, below 1 GHz",
            "a rate of 1 GHz or more",
        ],
    ),
    (SINGLE, EVENTS),
    (IN_RUNS, EVENTS),
    (
        REFRESHES,
        &[
            "full, ended",
            "full, cut",
            "partial, ended",
            "partial, cut",
            "inside a run of several",
            "end held at 2^64 - 1",
            "rule 1, by the Rust",
            "rule 2, tables of one timing, by the Rust",
            "rule 2, walked",
            "either rule, walked after one of these",
        ],
    ),
    (
        STARTS,
        &[
            "columns mirrored",
            "rows mirrored",
            "through a window",
            "window empty",
            "NEW copied to OLD at its end",
            "0 is white",
        ],
    ),
    (
        RESETS,
        &[
            "at the start",
            "one after the start",
            "one before a boundary",
            "on a boundary",
            "one after a boundary",
            "elsewhere between",
            "one before the end",
            "at the end",
            "one after the end",
        ],
    ),
    (ROWS, &KIND_WORDS),
];

#[derive(Default)]
pub struct Coverage {
    counts: BTreeMap<(&'static str, &'static str), u64>,
    pub events: u64,
    pub in_runs: u64,
    pub refreshes: u64,
    pub resets: u64,
    pub traces: u64,
    pub dropped: u64,
}

fn size_word(pixels: u64) -> &'static str {
    match pixels {
        0..=1 => "1 by 1",
        2..=99 => "2 to 99 pixels",
        100..=999 => "100 to 999 pixels",
        1_000..=8_000 => "1,000 to 8,000 pixels",
        8_001..=100_000 => "8,001 to 100,000 pixels",
        _ => "above 100,000 pixels",
    }
}

fn swing_word(swing: u64) -> &'static str {
    match swing {
        0..0x1_0000 => "swing below 2^16",
        0x1_0000..0x40_0000_0000_0000 => "swing from 2^16, below 2^54",
        _ => "swing from 2^54",
    }
}

fn event_word(event: Event) -> &'static str {
    EVENTS[usize::from(event.kind - capture::COMMAND)]
}

/// Where a reset came that cut a refresh: so many cycles after its start.
fn cut_word(board: Clock, elapsed: u64, period: u64) -> &'static str {
    let whole = |cycles: u64| board.nanos(cycles) / period;
    let frames = whole(elapsed);
    match (elapsed, elapsed - board.cycles(frames * period)) {
        (0, _) => "at the start",
        (_, 0) => "on a boundary",
        (1, _) => "one after the start",
        _ if whole(elapsed.saturating_add(1)) > frames => "one before a boundary",
        (_, 1) => "one after a boundary",
        _ => "elsewhere between",
    }
}

fn rate_word(rate: Option<u64>) -> &'static str {
    match rate {
        None => "no rate",
        Some(0..1_000) => "a rate below 1,000 Hz",
        Some(1_000..GIGAHERTZ) => "a rate from 1,000 Hz, below 1 GHz",
        Some(_) => "a rate of 1 GHz or more",
    }
}

fn refresh_word(kind: RefreshKind, interrupted: bool) -> &'static str {
    match (kind, interrupted) {
        (RefreshKind::Partial, false) => "partial, ended",
        (RefreshKind::Partial, true) => "partial, cut",
        (_, false) => "full, ended",
        (_, true) => "full, cut",
    }
}

impl Coverage {
    fn add(&mut self, section: &'static str, word: &'static str, count: u64) {
        *self.counts.entry((section, word)).or_default() += count;
    }

    fn add_if(&mut self, holds: bool, section: &'static str, word: &'static str) {
        if holds {
            self.add(section, word, 1);
        }
    }

    pub fn trace(&mut self, name: &'static str, of: &Configuration) {
        self.traces += 1;
        self.add(TRACES, name, 1);
        self.add(PANELS, size_word(of.pixels()), 1);
        self.add_if((of.sources, of.gates) == (792, 528), PANELS, "792 by 528");
        self.add_if((of.sources, of.gates) == (800, 600), PANELS, "800 by 600");
        self.add(SETTINGS, ["UC8253", "UC8279d"][usize::from(of.variant)], 1);
        for (flag, word) in [
            (capture::ROWS_REVERSED, "rows reversed"),
            (capture::COLUMNS_REVERSED, "columns reversed"),
            (capture::POSITIVE_DRIVES_BLACK, "positive drives black"),
            (capture::VCOM_BY_FRAME, "VCOM by rule 2"),
        ] {
            self.add_if(of.flag(flag), SETTINGS, word);
        }
        self.add(SETTINGS, swing_word(of.full_swing), 1);
        let largest = of.full_swing == i64::MAX as u64;
        self.add_if(largest, SETTINGS, "swing 2^63 - 1");
        self.add_if(of.periods.contains(&1), SETTINGS, "a period of 1");
        let long = of.periods.iter().any(|&period| period >= 1 << 40);
        self.add_if(long, SETTINGS, "a period from 2^40");
        self.add(SETTINGS, rate_word(of.rate), 1);
    }

    fn events(&mut self, steps: &[Step]) {
        let section = if steps[0].by_run { IN_RUNS } else { SINGLE };
        for step in steps {
            self.add(section, event_word(step.event), 1);
            self.resets += u64::from(step.event.kind == capture::RESET && step.event.value == 1);
        }
        match section {
            SINGLE => self.events += steps.len() as u64,
            _ => self.in_runs += steps.len() as u64,
        }
    }

    /// The refresh published last, and those before it in the same run of events.
    fn published(&mut self, beside: &Beside) {
        let image = beside.rust.panel_image();
        let count = image.generation - beside.before.generation;
        self.refreshes += count;
        if count == 0 {
            return;
        }
        self.add(REFRESHES, refresh_word(image.kind, image.interrupted), 1);
        self.add(REFRESHES, "inside a run of several", count - 1);
        let held = !image.interrupted && image.at.get() == u64::MAX;
        self.add_if(held, REFRESHES, "end held at 2^64 - 1");
    }

    /// A refresh that began with this command.
    fn begun(&mut self, beside: &Beside) {
        let registers = &beside.ours.record().regs;
        let (mode, interval) = (registers.psr[0], registers.cdi[0]);
        let first_batch = beside.rust.config().variant == chips::uc8253::Variant::Uc8253;
        let white = if first_batch { 1 } else { 1 << 4 };
        let window = registers.window;
        let empty = window.x0 > window.x1 || window.y0 > window.y1;
        for (holds, word) in [
            (mode & 4 == 0, "columns mirrored"),
            (mode & 8 == 0, "rows mirrored"),
            (registers.partial, "through a window"),
            (registers.partial && empty, "window empty"),
            (
                first_batch && interval & 8 != 0,
                "NEW copied to OLD at its end",
            ),
            (interval & white == 0, "0 is white"),
        ] {
            self.add_if(holds, STARTS, word);
        }
    }

    /// A reset that cut a refresh or came just at its end.
    fn reset(&mut self, beside: &Beside, event: Event) {
        let image = beside.rust.panel_image();
        let Some(end) = beside.before.deadline else {
            return;
        };
        if image.generation == beside.before.generation {
            return;
        }
        let elapsed = image.at.get() - image.started.get();
        if image.interrupted {
            let period = beside.ours.record().waveform.frame_ns;
            self.add(RESETS, cut_word(beside.board, elapsed, period), 1);
            self.add_if(image.at.get() + 1 == end, RESETS, "one before the end");
        } else {
            self.add_if(event.time == end, RESETS, "at the end");
            let after = end.checked_add(1) == Some(event.time);
            self.add_if(after, RESETS, "one after the end");
        }
    }

    pub fn report(&self) -> String {
        let mut text = String::new();
        for (section, words) in SECTIONS {
            let _ = writeln!(text, "{section}:");
            for &word in words {
                let count = self.counts.get(&(section, word)).unwrap_or(&0);
                let _ = writeln!(text, "  {word} {count}");
            }
        }
        let _ = writeln!(text, "  dropped {}", self.dropped);
        text
    }

    /// One line of how far the run has come.
    pub fn progress(&self) -> String {
        format!(
            "{} events by single calls, {} by run, {} refreshes, {} resets, {} traces",
            self.events, self.in_runs, self.refreshes, self.resets, self.traces
        )
    }
}

impl Watch for Coverage {
    fn refused(&mut self, _number: u8) {
        self.add(PANELS, "refused", 1);
    }

    fn piece(&mut self, beside: &Beside, steps: &[Step]) {
        self.events(steps);
        self.published(beside);
        let [Step { event, by_run, .. }] = *steps else {
            return;
        };
        if by_run {
            return;
        }
        match (event.kind, event.value) {
            (capture::COMMAND, 0x12) => {
                let started = deadline(&beside.rust).is_some();
                if started && beside.before.deadline.is_none() {
                    self.begun(beside);
                }
            }
            (capture::RESET, 1) => self.reset(beside, event),
            _ => {}
        }
    }

    fn end(&mut self, beside: &Beside) {
        for (word, count) in KIND_WORDS.into_iter().zip(beside.reported) {
            self.add(ROWS, word, count);
        }
        self.dropped += beside.rust.dropped_diagnostics();
        let judges = beside.rust.judges();
        for (word, count) in [
            ("rule 1, by the Rust", judges.first),
            ("rule 2, tables of one timing, by the Rust", judges.alike),
            ("rule 2, walked", judges.second),
            ("either rule, walked after one of these", judges.after),
        ] {
            self.add(REFRESHES, word, count);
        }
    }
}
