//! `oracle differ`: two captures compared in words, what they leave by the published Rust.

use std::fmt::{Display, Write};

use crate::capture::{CONFIGURATION_BYTES, Capture, Event};
use crate::log::Row;
use crate::run::{self, Outcome};

/// The first place at which two lists differ, in an entry or because one has ended.
fn first<T: PartialEq>(a: &[T], b: &[T]) -> Option<usize> {
    let same = a.iter().zip(b).take_while(|(x, y)| x == y).count();
    (same < a.len() || same < b.len()).then_some(same)
}

fn event(event: &Event) -> String {
    let kinds = ["command", "data", "read", "reset", "advance", "rule"];
    let kind = kinds[usize::from(event.kind) - 1];
    format!("{kind} {} at {}", event.value, event.time)
}

fn row(row: &Row) -> String {
    row.map(|number| number.to_string()).join(" ")
}

/// Both entries of a place, or the one that there is.
fn sides<T>(a: &[T], b: &[T], at: usize, words: impl Fn(&T) -> String) -> String {
    match (a.get(at).map(&words), b.get(at).map(&words)) {
        (Some(a), Some(b)) => format!("{a}, {b}"),
        (Some(a), None) => format!("only in A, {a}"),
        (None, Some(b)) => format!("only in B, {b}"),
        (None, None) => String::new(),
    }
}

/// A capture that was accepted, the 312 bytes of its configuration, its rate, whether the file has
/// that or not, and what it leaves.
struct Side {
    events: Vec<Event>,
    configuration: Vec<u8>,
    hertz: u64,
    outcome: Outcome,
}

fn side(file: &[u8]) -> Result<Side, u8> {
    let (capture, chip) = run::accept_any(file).map_err(|refusal| refusal.number())?;
    let Capture {
        configuration: of,
        events,
    } = capture;
    let from = file.len() - of.tail_bytes();
    let configuration = file[from..from + CONFIGURATION_BYTES].to_vec();
    Ok(Side {
        outcome: run::events(chip, &events, |_, _, _| ()),
        configuration,
        hertz: of.hertz(),
        events,
    })
}

/// The first event, else the first row, else the first pixel.
fn finding(a: &Side, b: &Side) -> Option<String> {
    if let Some(at) = first(&a.events, &b.events) {
        return Some(format!(
            "event {at}: {}",
            sides(&a.events, &b.events, at, event)
        ));
    }
    let (rows_a, rows_b) = (&a.outcome.log.stored, &b.outcome.log.stored);
    if let Some(at) = first(rows_a, rows_b) {
        return Some(format!("row {at}: {}", sides(rows_a, rows_b, at, row)));
    }
    let (image_a, image_b) = (&a.outcome.image, &b.outcome.image);
    if (image_a.width, image_a.height) != (image_b.width, image_b.height) {
        return None;
    }
    let at = first(&image_a.pixels, &image_b.pixels)?;
    let (x, y) = (
        at % usize::from(image_a.width),
        at / usize::from(image_a.width),
    );
    let (grey_a, grey_b) = (image_a.pixels[at], image_b.pixels[at]);
    Some(format!("pixel {x} {y}: {grey_a}, {grey_b}"))
}

/// How many pixels differ, and by how much at most.
fn pixels(a: &Side, b: &Side) -> String {
    let (a, b) = (&a.outcome.image, &b.outcome.image);
    if (a.width, a.height) != (b.width, b.height) {
        return format!(
            "panels of {} by {} and {} by {}: pixels not compared",
            a.width, a.height, b.width, b.height
        );
    }
    let apart = a.pixels.iter().zip(&b.pixels).map(|(x, y)| x.abs_diff(*y));
    let some: Vec<u8> = apart.filter(|&distance| distance > 0).collect();
    let most = some
        .iter()
        .max()
        .map_or(String::new(), |most| format!(", by at most {most}"));
    format!("{} of {} pixels differ{most}", some.len(), a.pixels.len())
}

/// What `jollanqe compare` prints for two files of these names.
pub fn differ(names: [&str; 2], files: [&[u8]; 2]) -> String {
    let mut text = String::new();
    let mut say = |line: &dyn Display| {
        let _ = writeln!(text, "{line}");
    };
    let (a, b) = match files.map(side) {
        [Ok(a), Ok(b)] => (a, b),
        sides => {
            for (side, name) in sides.iter().zip(names) {
                if let Err(number) = side {
                    say(&format!("refused {number} {name}"));
                }
            }
            return text;
        }
    };
    let byte = first(&a.configuration, &b.configuration);
    let finding = finding(&a, &b);
    let rates = byte.is_none() && a.hertz != b.hertz;
    if byte.is_none() && !rates && finding.is_none() {
        return "the captures agree\n".to_string();
    }
    if let Some(at) = byte {
        let bytes = (a.configuration[at], b.configuration[at]);
        say(&format!(
            "configuration byte {at}: {}, {}",
            bytes.0, bytes.1
        ));
    }
    if rates {
        say(&format!("configuration rate: {}, {}", a.hertz, b.hertz));
    }
    if let Some(line) = finding {
        say(&line);
    }
    say(&pixels(&a, &b));
    text
}
