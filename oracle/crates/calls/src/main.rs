//! `calls`: the library, call by call, beside the published Rust in one process.

mod beside;
mod compare;
mod coverage;
mod difference;
mod keep;
mod memory;
mod sample;
mod steps;
#[cfg(test)]
mod tests;
mod traces;

use std::io;
use std::path::Path;
use std::process::ExitCode;
use std::time::{Instant, SystemTime, UNIX_EPOCH};

use oracle::rng::Rng;

use coverage::Coverage;
use traces::Trace;

const USAGE: &str = "usage: calls [EVENTS [SEED]]
       calls sample DIR
";
const USUAL_EVENTS: u64 = 1_000_000;
/// A run has a refresh for so many events, or goes on.
const EVENTS_A_REFRESH: u64 = 50;
const PROGRESS_EVERY: u64 = 100_000;
const DIFFERENCE: &str = "difference";
/// Keeps the draws of a trace's marks apart from those of the trace.
const MARKS: u64 = 0x6D61_726B;

/// Compares the trace of `seed`; a difference is reduced and kept.
fn one(seed: u64, coverage: &mut Coverage) -> io::Result<bool> {
    let Trace { name, capture } = traces::make(seed);
    let steps = steps::marked(&mut Rng::new(seed ^ MARKS), &capture.events);
    coverage.trace(name, &capture.configuration);
    let Err(found) = compare::trace(&capture.configuration, &steps, coverage) else {
        return Ok(true);
    };
    let head = format!("seed {seed}, {name}");
    print!("{head}, {}", keep::words(&found));
    let (steps, found) = compare::reduced(&capture.configuration, &steps, found);
    let directory = Path::new(DIFFERENCE);
    keep::keep(directory, &head, &capture.configuration, &steps, &found)?;
    print!(
        "reduced to {} events and kept in {DIFFERENCE}/, {}",
        steps.len(),
        keep::words(&found)
    );
    Ok(false)
}

/// Traces of `seed`, `seed` + 1, .. until so many events went by single calls.
fn compare(events: u64, seed: u64) -> io::Result<ExitCode> {
    println!("calls {events} {seed}");
    let begun = Instant::now();
    let mut coverage = Coverage::default();
    let mut next = PROGRESS_EVERY;
    let mut trace = seed;
    while coverage.events < events || coverage.refreshes < events / EVENTS_A_REFRESH {
        if !one(trace, &mut coverage)? {
            return Ok(ExitCode::FAILURE);
        }
        trace = trace.wrapping_add(1);
        if coverage.events >= next {
            println!("{} s: {}", begun.elapsed().as_secs(), coverage.progress());
            next = coverage.events + PROGRESS_EVERY;
        }
    }
    print!("{}", coverage.report());
    println!("{} s: {}", begun.elapsed().as_secs(), coverage.progress());
    println!("no difference");
    Ok(ExitCode::SUCCESS)
}

fn number(word: &str) -> io::Result<u64> {
    word.parse()
        .map_err(|error| io::Error::new(io::ErrorKind::InvalidInput, format!("{word}: {error}")))
}

/// A seed that no run had before.
fn fresh_seed() -> u64 {
    SystemTime::now()
        .duration_since(UNIX_EPOCH)
        .map_or(1, |since| since.as_secs())
        << 20
}

fn obey(words: &[&str]) -> io::Result<ExitCode> {
    match words {
        [] => compare(USUAL_EVENTS, fresh_seed()),
        ["sample", directory] => {
            print!("{}", sample::write(Path::new(directory))?);
            Ok(ExitCode::SUCCESS)
        }
        [events] => compare(number(events)?, fresh_seed()),
        [events, seed] => compare(number(events)?, number(seed)?),
        _ => {
            eprint!("{USAGE}");
            Ok(ExitCode::from(2))
        }
    }
}

fn main() -> ExitCode {
    let arguments: Vec<String> = std::env::args().skip(1).collect();
    let words: Vec<&str> = arguments.iter().map(String::as_str).collect();
    obey(&words).unwrap_or_else(|error| {
        eprintln!("calls: {error}");
        ExitCode::from(2)
    })
}
