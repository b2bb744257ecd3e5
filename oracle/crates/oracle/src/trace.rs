//! `oracle trace`: the run, with what the chip shows from outside after every event.

use std::fmt::Write;

use emu_core::{Cycles, Level};

use crate::capture::Event;
use crate::chip::Chip;
use crate::planes::Planes;
use crate::run;

fn line(text: &mut String, index: usize, event: Event, chip: &Chip, planes: &Planes) {
    let busy = match chip.busy_pin(Cycles(event.time)) {
        Level::Low => "low",
        Level::High => "high",
    };
    let deadline = chip
        .next_deadline()
        .map_or("none".to_string(), |end| end.get().to_string());
    let _ = writeln!(
        text,
        "event {index} {} {} {} {busy} {deadline} {} {}",
        event.time, event.kind, event.value, planes.old, planes.new
    );
}

pub fn trace(file: &[u8]) -> String {
    let (capture, chip) = match run::accept(file) {
        Err(refusal) => return run::refused(refusal),
        Ok(accepted) => accepted,
    };
    let mut text = String::new();
    let mut planes = Planes::at_making(&chip);
    let outcome = run::events(chip, &capture.events, |index, event, chip| {
        planes.follow(event, chip);
        line(&mut text, index, event, chip, &planes);
    });
    text + &run::report(&outcome)
}
