//! The fixed sample: small traces with the Rust's answers after every event, for a program that
//! replays them with no Rust at hand. oracle/README.md has the layout.

use std::fs;
use std::io;
use std::path::Path;

use jollanqe::Plane;
use oracle::capture::{Capture, Event, MOST_EVENTS};
use oracle::cases;
use oracle::chip::Chip;
use oracle::log::Log;
use oracle::run;

use crate::beside::{answer_number, deadline, is_low};
use crate::memory::plane_bytes;
use crate::traces;

const TRACES: usize = 60;
const MOST_EVENTS_OF_MANY: usize = 130;
/// So often the planes are digested, besides the last event.
const DIGEST_EVERY: usize = 16;

const FNV_OFFSET: u32 = 0x811C_9DC5;
const FNV_PRIME: u32 = 0x0100_0193;

/// FNV-1a, 32 bits, over the bytes of OLD, then those of NEW.
pub fn digest(planes: [&[u8]; 2]) -> u32 {
    let bytes = planes.into_iter().flatten();
    bytes.fold(FNV_OFFSET, |hash, &byte| {
        (hash ^ u32::from(byte)).wrapping_mul(FNV_PRIME)
    })
}

/// A chip that keeps its rows, and the same chip whose rows are taken after every event.
struct Counted {
    chip: Chip,
    emptied: Chip,
    log: Log,
}

impl Counted {
    fn meet(&mut self, event: Event) -> u16 {
        run::step(&mut self.emptied, event);
        self.log.add_from(&mut self.emptied);
        answer_number(run::step(&mut self.chip, event))
    }

    /// The 24 bytes of an event; `digested` says whether the planes are digested.
    fn answers(&mut self, event: Event, digested: bool) -> Vec<u8> {
        let answer = self.meet(event);
        let chip = &self.chip;
        let end = deadline(chip);
        let planes = [Plane::Old, Plane::New].map(|plane| match digested {
            true => plane_bytes(chip, plane),
            false => Vec::new(),
        });
        let mut bytes = answer.to_le_bytes().to_vec();
        bytes.push(u8::from(is_low(chip, event.time)));
        bytes.push(u8::from(end.is_some()));
        bytes.extend(end.unwrap_or(0).to_le_bytes());
        bytes.extend((self.log.stored.len() as u16).to_le_bytes());
        bytes.extend((self.log.dropped as u16).to_le_bytes());
        bytes.extend((chip.panel_image().generation as u32).to_le_bytes());
        let digest = if digested {
            digest(planes.each_ref().map(|plane| &plane[..]))
        } else {
            0
        };
        bytes.extend(digest.to_le_bytes());
        bytes
    }
}

/// A trace of the sample.
fn trace(capture: &Capture) -> Vec<u8> {
    let file = capture.encode();
    let accepted = || {
        run::accept(&file)
            .expect("a sample's capture is accepted")
            .1
    };
    let mut chips = Counted {
        chip: accepted(),
        emptied: accepted().without_pictures(),
        log: Log::default(),
    };
    let mut bytes = (file.len() as u32).to_le_bytes().to_vec();
    bytes.extend(&file);
    let count = capture.events.len();
    for (index, &event) in capture.events.iter().enumerate() {
        let digested = index % DIGEST_EVERY == DIGEST_EVERY - 1 || index + 1 == count;
        bytes.extend(chips.answers(event, digested));
    }
    bytes
}

fn fits(capture: &Capture, most: usize) -> bool {
    (1..=most).contains(&capture.events.len()) && run::accept(&capture.encode()).is_ok()
}

/// A table load of 61 bytes, whose second row is left out.
fn long_load() -> Option<Capture> {
    let cases = cases::all();
    let case = cases.iter().find(|case| case.name == "table-61-bytes")?;
    Capture::read(&case.file).ok()
}

/// The captures of the sample: one with more rows than are kept, one with a load that is too long,
/// then short ones of each kind.
fn captures() -> Vec<Capture> {
    let crowded = (0..)
        .map(traces::crowded)
        .find(|capture| fits(capture, MOST_EVENTS));
    let short = (0..)
        .map(traces::short)
        .filter(|capture| fits(capture, MOST_EVENTS_OF_MANY));
    crowded
        .into_iter()
        .chain(long_load())
        .chain(short)
        .take(TRACES)
        .collect()
}

pub fn bytes() -> Vec<u8> {
    captures().iter().flat_map(trace).collect()
}

/// Writes the sample as the standard input of the program that replays it.
pub fn write(directory: &Path) -> io::Result<String> {
    let (bytes, captures) = (bytes(), captures());
    let events: usize = captures.iter().map(|capture| capture.events.len()).sum();
    fs::create_dir_all(directory)?;
    fs::write(directory.join("stdin"), &bytes)?;
    Ok(format!(
        "{} traces, {events} events, {} bytes\n",
        captures.len(),
        bytes.len()
    ))
}
