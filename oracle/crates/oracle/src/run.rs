//! `oracle run`: a capture through the published Rust, printed as document 01's program prints.

use std::fmt::Write;

use chips::lines::ONE_GIGAHERTZ;
use chips::uc8253::{PanelImage, RefreshKind, Uc8253};

use crate::capture::{Capture, Configuration, Event};
pub use crate::chip::Answer;
use crate::chip::{Chip, Judges};
use crate::clock::Clock;
use crate::log::Log;
use crate::refusal::Refusal;
use crate::rows;

/// The most pixels of the program's panel.
pub const MOST_PIXELS: u64 = 8_000;

/// The chip of a configuration, or refusals 1 to 4 and 13, then 10.
pub fn make(configuration: &Configuration) -> Result<Chip, Refusal> {
    let chip = make_any(configuration)?;
    if configuration.pixels() > MOST_PIXELS {
        return Err(Refusal::TooManyPixels);
    }
    Ok(chip)
}

/// The chip of a configuration of any size up to 800 by 600, or refusals 1 to 4 by the Rust's own
/// test, which comes before that of the rate, then 13.
pub fn make_any(configuration: &Configuration) -> Result<Chip, Refusal> {
    let clock = configuration.clock();
    let time_base = clock.map_or(ONE_GIGAHERTZ, Clock::time_base);
    let published = Uc8253::new(configuration.chip(), time_base)?;
    clock.map(|clock| Chip::new(published, clock, configuration.rule()))
}

/// What a word of `jollanqe` plays: the tests of the program without 10.
pub fn accept_any(file: &[u8]) -> Result<(Capture, Chip), Refusal> {
    let capture = Capture::read(file)?;
    let chip = make_any(&capture.configuration)?;
    Ok((capture, chip))
}

/// The capture and its chip at making, or the first refusal in the program's order.
pub fn accept(file: &[u8]) -> Result<(Capture, Chip), Refusal> {
    let capture = Capture::read(file)?;
    let chip = make(&capture.configuration)?;
    Ok((capture, chip))
}

/// Lets the chip meet one listed event.
pub fn step(chip: &mut Chip, event: Event) -> Answer {
    chip.meet(event)
}

/// What the whole run leaves to print.
pub struct Outcome {
    /// The event's time and its byte, for each read.
    pub reads: Vec<(u64, Option<u8>)>,
    pub log: Log,
    pub image: PanelImage,
    pub judges: Judges,
}

/// Runs the events of an accepted capture; `watch` sees the chip after each.
pub fn events(
    mut chip: Chip,
    events: &[Event],
    mut watch: impl FnMut(usize, Event, &Chip),
) -> Outcome {
    let mut reads = Vec::new();
    let mut log = Log::default();
    for (index, &event) in events.iter().enumerate() {
        if let Some(byte) = step(&mut chip, event) {
            reads.push((event.time, byte));
        }
        log.add_from(&mut chip);
        watch(index, event, &chip);
    }
    Outcome {
        reads,
        log,
        image: chip.panel_image().clone(),
        judges: chip.judges(),
    }
}

/// The log as the Rust itself keeps it, with no row left out.
pub fn own_log(chip: Chip, events: &[Event]) -> Log {
    let mut chip = chip.without_pictures();
    for &event in events {
        step(&mut chip, event);
    }
    Log {
        dropped: chip.dropped_diagnostics(),
        stored: chip.take_diagnostics().iter().map(rows::numbers).collect(),
        left_out: 0,
    }
}

fn words(numbers: impl IntoIterator<Item = u64>) -> String {
    let words: Vec<String> = numbers.into_iter().map(|n| n.to_string()).collect();
    words.join(" ")
}

fn kind_word(kind: RefreshKind) -> &'static str {
    match kind {
        RefreshKind::PowerOn => "poweron",
        RefreshKind::Full => "full",
        RefreshKind::Partial => "partial",
    }
}

/// The head of a picture.
pub fn head(image: &PanelImage) -> String {
    format!(
        "image {} {} {} {} {} {} {}\n",
        image.width,
        image.height,
        image.generation,
        kind_word(image.kind),
        u8::from(image.interrupted),
        image.started.get(),
        image.at.get(),
    )
}

fn picture(image: &PanelImage) -> String {
    let mut text = head(image);
    for row in image.pixels.chunks(usize::from(image.width)) {
        text += &words(row.iter().map(|&grey| u64::from(grey)));
        text.push('\n');
    }
    text
}

/// The program's lines for a run that was accepted.
pub fn report(outcome: &Outcome) -> String {
    let mut text = String::new();
    for (time, byte) in &outcome.reads {
        let byte = byte.map_or("none".to_string(), |byte| byte.to_string());
        let _ = writeln!(text, "read {time} {byte}");
    }
    for row in &outcome.log.stored {
        let _ = writeln!(text, "diag {}", words(*row));
    }
    let _ = writeln!(text, "dropped {}", outcome.log.dropped);
    text + &picture(&outcome.image)
}

/// The program's line for a refused capture.
pub fn refused(refusal: Refusal) -> String {
    format!("refused {}\n", refusal.number())
}

/// What the program prints for a file, and what the Rust's list lost on the way.
pub struct Judged {
    pub text: String,
    pub is_refused: bool,
    pub left_out: u64,
    pub judges: Judges,
}

/// A log of which no row is left out is the Rust's own, also where rows are dropped.
fn hold_to_own(file: &[u8], log: &Log) {
    if log.left_out == 0 && log.dropped > 0 {
        let (capture, chip) = accept(file).ok().expect("it was accepted");
        assert_eq!(own_log(chip, &capture.events), *log);
    }
}

/// What `panel` prints for a file of zero bytes (2026-06).
pub const NO_EVENTS: &str = "no events\n";

pub fn judge(file: &[u8]) -> Judged {
    if file.is_empty() {
        return Judged {
            text: NO_EVENTS.to_string(),
            is_refused: false,
            left_out: 0,
            judges: Judges::default(),
        };
    }
    match accept(file) {
        Err(refusal) => Judged {
            text: refused(refusal),
            is_refused: true,
            left_out: 0,
            judges: Judges::default(),
        },
        Ok((capture, chip)) => {
            let outcome = events(chip, &capture.events, |_, _, _| ());
            hold_to_own(file, &outcome.log);
            Judged {
                text: report(&outcome),
                is_refused: false,
                left_out: outcome.log.left_out,
                judges: outcome.judges,
            }
        }
    }
}

/// Exactly what the program prints for `file`.
pub fn run(file: &[u8]) -> String {
    judge(file).text
}
