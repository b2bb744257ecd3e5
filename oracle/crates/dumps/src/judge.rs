//! What `jollanqe vcd` has to write for a configuration and a dump.

use chips::uc8253::PanelImage;
use oracle::capture::{CONFIGURATION_BYTES, Configuration, Event};
use oracle::chip::Chip;
use oracle::refusal::Refusal;
use oracle::tops::Shades;
use oracle::{picture, png, run};

use crate::signals;

/// What a job asks for; of a picture, perhaps its top.
#[derive(Clone, Copy, Debug, PartialEq, Eq)]
pub enum Form {
    Lines,
    Pgm(Option<u16>),
    Png(Option<u16>),
}

impl Form {
    pub fn words(self) -> String {
        match self {
            Form::Lines => "lines".to_string(),
            Form::Pgm(None) => "pgm".to_string(),
            Form::Png(None) => "png".to_string(),
            Form::Pgm(Some(top)) => format!("pgm {top}"),
            Form::Png(Some(top)) => format!("png {top}"),
        }
    }

    /// The form of so many words; a PNG file's white is 255, for which 0 stands, or 65,535.
    pub fn of(words: &[&str]) -> Option<Form> {
        match words {
            [] | ["lines"] => Some(Form::Lines),
            ["pgm"] => Some(Form::Pgm(None)),
            ["png"] => Some(Form::Png(None)),
            ["pgm", top] => Some(Form::Pgm(Some(top.parse().ok()?))),
            ["png", top @ ("0" | "255" | "65535")] => Some(Form::Png(Some(top.parse().ok()?))),
            _ => None,
        }
    }
}

/// The chip of a configuration that is no wrong length, or the refusals after 12.
pub fn make(configuration: &[u8]) -> Result<Chip, u8> {
    let configuration = Configuration::decode(configuration);
    if !configuration.is_listed() {
        return Err(Refusal::BadEvent.number());
    }
    run::make_any(&configuration).map_err(Refusal::number)
}

/// The chip and the events to come, or the first refusal: 8, 11, 12, 9, 1 to 4. A dump's
/// configuration has no rate.
pub fn accept(configuration: &[u8], dump: &[u8]) -> Result<(Chip, Vec<Event>), u8> {
    if configuration.len() != CONFIGURATION_BYTES {
        return Err(Refusal::BrokenCapture.number());
    }
    let events = signals::events(dump).map_err(|fault| fault.number())?;
    Ok((make(configuration)?, events))
}

fn png(image: &PanelImage) -> Vec<u8> {
    png::file(image.width, image.height, 8, &image.pixels)
}

/// What a panel shows at a top after these events.
fn shades(mut chip: Chip, events: &[Event], top: u16) -> Shades {
    for &event in events {
        run::step(&mut chip, event);
    }
    Shades::of(&chip, top)
}

/// What is written for a panel that meets these events.
pub fn played(chip: Chip, events: &[Event], form: Form) -> Vec<u8> {
    let outcome = |chip| run::events(chip, events, |_, _, _| ());
    match form {
        Form::Lines => run::report(&outcome(chip)).into_bytes(),
        Form::Pgm(None) => picture::graymap(&outcome(chip).image),
        Form::Png(None) => png(&outcome(chip).image),
        Form::Pgm(Some(top)) => shades(chip, events, top).graymap(),
        Form::Png(Some(top)) => shades(chip, events, top).png(),
    }
}

pub fn refused(number: u8) -> Vec<u8> {
    format!("refused {number}\n").into_bytes()
}

/// What a job writes.
pub fn judge(configuration: &[u8], dump: &[u8], form: Form) -> Vec<u8> {
    match accept(configuration, dump) {
        Err(number) => refused(number),
        Ok((chip, events)) => played(chip, &events, form),
    }
}
