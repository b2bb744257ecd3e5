//! Traces to compare, from a seed: the generator's captures, and longer ones on panels of every
//! size.

mod boundaries;
mod pages;
mod panels;

use oracle::capture::Capture;
use oracle::generate::bench::Bench;
use oracle::generate::host::Host;
use oracle::generate::{self, hostile};
use oracle::rng::Rng;

/// A panel and what it meets. `capture` may be longer, and its panel larger, than the program's.
pub struct Trace {
    /// What the trace is for, one of [`NAMES`].
    pub name: &'static str,
    pub capture: Capture,
}

pub const NAMES: [&str; 9] = [
    "a generated capture",
    "resets around each frame boundary",
    "a refresh whose end is held at 2^64 - 1",
    "many refreshes",
    "many page turns",
    "any bytes, more rows than are kept, or reads",
    "a command with more bytes or reads than are counted",
    "a large panel",
    "the X3's own panel",
];

/// The trace of `seed`, always the same.
pub fn make(seed: u64) -> Trace {
    let mut rng = Rng::new(seed);
    let name = match rng.below(1_000) {
        0..=299 => 0,
        300..=479 => 1,
        480..=629 => 2,
        630..=849 => 3,
        850..=924 => 4,
        925..=964 => 5,
        965..=969 => 6,
        970..=986 => 7,
        _ => 8,
    };
    Trace {
        name: NAMES[name],
        capture: capture(name, rng, Host::of(seed)),
    }
}

fn capture(name: usize, mut rng: Rng, mut host: Host) -> Capture {
    let mut capture = match name {
        0 => return generated(&mut rng, generate::make),
        1 => boundaries::each(rng, &mut host),
        2 => boundaries::held(rng, &mut host),
        3 => pages::refreshes(small(rng, &mut host)),
        4 => pages::turns(small(rng, &mut host)),
        5 => hostile(small(rng, &mut host)),
        6 => pages::counts(small(rng, &mut host)),
        7 => {
            let size = panels::large(&mut rng);
            pages::whole(Bench::long(host.with(panels::of_size(rng, size))))
        }
        _ => pages::whole(Bench::long(host.with(panels::x3(rng)))),
    };
    host.add_to_any(&mut capture);
    capture
}

fn small(mut rng: Rng, host: &mut Host) -> Bench {
    let size = panels::small(&mut rng);
    Bench::long(host.with(panels::of_size(rng, size)))
}

/// A capture of the generator whose file can be read; its making may be refused.
fn generated(rng: &mut Rng, make: fn(u64) -> Vec<u8>) -> Capture {
    loop {
        if let Ok(capture) = Capture::read(&make(rng.any())) {
            return capture;
        }
    }
}

fn hostile(mut bench: Bench) -> Capture {
    match bench.rng.below(4) {
        0 => hostile::storm(bench),
        1..=2 => hostile::flood(bench),
        _ => pages::questions(bench),
    }
}

/// A trace on a small panel with more rows than are kept; no rate, and rule 1.
pub fn crowded(seed: u64) -> Capture {
    hostile::flood(small(Rng::new(seed), &mut Host::plain()))
}

/// A trace that is often short, of one kind after the other; no rate, and rule 1.
pub fn short(seed: u64) -> Capture {
    let mut rng = Rng::new(seed);
    let plain = &mut Host::plain();
    match seed % 7 {
        0 => boundaries::some(rng),
        1 => boundaries::held(rng, plain),
        2 => pages::few_refreshes(small(rng, plain)),
        3 => hostile::storm(small(rng, plain)),
        4 => pages::questions(small(rng, plain)),
        _ => generated(&mut rng, generate::plain),
    }
}
