//! `oracle list`: a capture in words, also of a damaged file as far as it can be read.

use std::fmt::Write;

use crate::capture::{self, Capture, Configuration, EVENT_BYTES, Event, Trailer};
use crate::names;
use crate::run;

/// An event in words.
pub fn event_words(event: Event) -> String {
    let Event { kind, value, .. } = event;
    if !event.is_listed() {
        return format!("not listed: kind {kind}, value {value}");
    }
    match kind {
        capture::COMMAND => format!("command {value:02X} {}", names::name(value)),
        capture::DATA => format!("data {value:02X}"),
        capture::READ => "read".to_string(),
        capture::RESET if value == 0 => "reset released".to_string(),
        capture::RESET => "reset asserted".to_string(),
        capture::VCOM_RULE => format!("VCOM by rule {value}"),
        _ => "advance".to_string(),
    }
}

fn variant_word(variant: u8) -> &'static str {
    match variant {
        0 => "UC8253",
        1 => "UC8279d",
        _ => "not listed",
    }
}

fn flag_words(flags: u8) -> String {
    let words = [
        (capture::ROWS_REVERSED, "rows reversed"),
        (capture::COLUMNS_REVERSED, "columns reversed"),
        (capture::POSITIVE_DRIVES_BLACK, "positive drives black"),
        (capture::VCOM_BY_FRAME, "VCOM by rule 2"),
        (!capture::LISTED_FLAGS, "bits not listed"),
    ];
    let set: Vec<&str> = words
        .iter()
        .filter(|(bit, _)| flags & bit != 0)
        .map(|&(_, word)| word)
        .collect();
    set.join(", ")
}

/// The periods, equal neighbours on one line.
fn period_lines(text: &mut String, periods: &[u64]) {
    let mut first = 0;
    for run in periods.chunk_by(|a, b| a == b) {
        let last = first + run.len() - 1;
        let codes = match run {
            [_] => format!("code {first}"),
            _ => format!("codes {first} to {last}"),
        };
        let _ = writeln!(text, "period of {codes}: {} ns", run[0]);
        first = last + 1;
    }
}

fn configuration_lines(text: &mut String, of: &Configuration) {
    let _ = writeln!(
        text,
        "variant {} ({})",
        of.variant,
        variant_word(of.variant)
    );
    let _ = writeln!(text, "flags {} ({})", of.flags, flag_words(of.flags));
    let _ = writeln!(text, "panel {} sources by {} gates", of.sources, of.gates);
    let _ = writeln!(text, "initial grey {}", of.initial_grey);
    let _ = writeln!(text, "ambient {}", of.ambient);
    let _ = writeln!(text, "full swing {} mV ns", of.full_swing);
    for (what, time) in [
        ("power on", of.power_on),
        ("power off", of.power_off),
        ("deep sleep", of.deep_sleep),
        ("soft reset", of.soft_reset),
        ("hardware reset", of.hardware_reset),
    ] {
        let _ = writeln!(text, "{what} {time} ns");
    }
    period_lines(text, &of.periods);
    if let Some(rate) = of.rate {
        let _ = writeln!(text, "rate {rate} Hz");
    }
}

fn head_lines(text: &mut String, file: &[u8]) {
    let _ = writeln!(text, "length {} bytes", file.len());
    if let Some(start) = file.len().checked_sub(capture::TRAILER_BYTES) {
        let Trailer { offset, count } = Trailer::decode(&file[start..]);
        let _ = writeln!(text, "trailer: offset {offset}, {count} events");
    }
    if let Err(refusal) = run::accept(file) {
        let _ = writeln!(text, "refusal {} ({})", refusal.number(), refusal.word());
    }
}

fn event_lines(text: &mut String, bytes: &[u8]) {
    let events = bytes.chunks_exact(EVENT_BYTES);
    let rest = events.remainder().len();
    for (index, event) in events.map(Event::decode).enumerate() {
        let words = event_words(event);
        let _ = writeln!(
            text,
            "event {index} at {}: {}",
            event.time,
            words.trim_end()
        );
    }
    if rest != 0 {
        let _ = writeln!(text, "{rest} bytes left over");
    }
}

pub fn list(file: &[u8]) -> String {
    let mut text = String::new();
    head_lines(&mut text, file);
    if let Some(capture) = Capture::salvage(file) {
        configuration_lines(&mut text, &capture.configuration);
        let tail = capture.configuration.tail_bytes();
        event_lines(&mut text, &file[..file.len() - tail]);
    } else {
        let _ = writeln!(text, "too short for a configuration, read as events:");
        event_lines(&mut text, file);
    }
    text
}
