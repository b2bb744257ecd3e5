//! A difference as it is kept: a small capture, and what it shows in words.

use std::fmt::Write;
use std::fs;
use std::io;
use std::path::Path;

use oracle::capture::{Capture, Configuration};
use oracle::list;

use crate::compare::Found;
use crate::steps::Step;

/// The indices of the steps that `test` holds of.
fn listed(steps: &[Step], test: impl Fn(&Step) -> bool) -> String {
    let words: Vec<String> = (0..steps.len())
        .filter(|&index| test(&steps[index]))
        .map(|index| index.to_string())
        .collect();
    if words.is_empty() {
        "none".to_string()
    } else {
        words.join(" ")
    }
}

/// Both values, and after which event.
pub fn words(found: &Found) -> String {
    let after = found.event.map_or("making".to_string(), |event| {
        format!("event {event} (from 0)")
    });
    let difference = &found.difference;
    format!(
        "after {after}: {}\n  ours {}\n  rust {}\n",
        difference.what, difference.ours, difference.rust
    )
}

/// Writes `calls.capture` and `calls.txt` into `directory`.
pub fn keep(
    directory: &Path,
    head: &str,
    configuration: &Configuration,
    steps: &[Step],
    found: &Found,
) -> io::Result<()> {
    let capture = Capture {
        configuration: configuration.clone(),
        events: steps.iter().map(|step| step.event).collect(),
    };
    let file = capture.encode();
    let mut text = format!("{head}\n{}", words(found));
    let _ = writeln!(text, "events by run: {}", listed(steps, |step| step.by_run));
    let _ = writeln!(
        text,
        "rows taken after: {}",
        listed(steps, |step| step.takes)
    );
    text += &list::list(&file);
    fs::create_dir_all(directory)?;
    fs::write(directory.join("calls.capture"), file)?;
    fs::write(directory.join("calls.txt"), text)
}
