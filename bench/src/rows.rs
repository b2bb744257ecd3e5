//! The rows of the table: each prepares its input untimed, times both sides in turn, and compares
//! what they show.

use chips::uc8253::Uc8253;
use emu_core::Cycles;
use oracle::capture::{self, Configuration, Event};
use oracle::rng::Rng;

use crate::panels::{Waveform, fill, noise, plane_bytes, ready, short};
use crate::sides::{DRF, DTM1, DTM2, Sides, Stream, sent};
use crate::table::{ROUNDS, Row, timed};

/// Refreshes before the first timed one, so that states take several values.
const WARM: usize = 6;
const SEED: u64 = 1;

fn rust_bytes(rust: &mut Uc8253, events: &[Event]) {
    for event in events {
        rust.write_data(Cycles(event.time), event.value);
    }
}

/// A stream of pixel bytes under 13, in front of which both sides stand.
fn pixel_stream(sides: &mut Sides, rng: &mut Rng, count: usize) -> Stream {
    sides.send(DTM2, &[]);
    let data = noise(rng, count);
    Stream::new(sent(sides.clock, DTM2, &data).skip(1).collect())
}

/// A plane byte by a call of its own.
pub fn byte_by_call(configuration: &Configuration) {
    let count = plane_bytes(configuration);
    let mut row = Row::new("a plane byte by a single call", count as u64);
    let mut sides = ready(configuration, &short());
    let mut rng = Rng::new(SEED);
    for _ in 0..ROUNDS {
        let stream = pixel_stream(&mut sides, &mut rng, count);
        let (ours, ()) = timed(|| {
            for event in &stream.events {
                sides
                    .ours
                    .data(event.time, event.value)
                    .expect("not refused");
            }
        });
        let (rust, ()) = timed(|| rust_bytes(&mut sides.rust, &stream.events));
        row.note(ours, rust);
        sides.compare();
    }
    row.print();
}

/// So many plane bytes by one `run`.
pub fn bytes_by_run(configuration: &Configuration, count: usize, what: &str) {
    let mut row = Row::new(what, count as u64);
    let mut sides = ready(configuration, &short());
    let mut rng = Rng::new(SEED);
    for _ in 0..ROUNDS {
        let mut stream = pixel_stream(&mut sides, &mut rng, count);
        let (ours, ()) = timed(|| stream.run_ours(&mut sides.ours));
        let (rust, ()) = timed(|| rust_bytes(&mut sides.rust, &stream.events));
        row.note(ours, rust);
        sides.compare();
    }
    row.print();
}

/// Both sides begin a refresh; how long each takes.
fn begin(sides: &mut Sides) -> (f64, f64) {
    let clock = sides.clock;
    let (ours, answer) = timed(|| sides.ours.command(clock, DRF));
    let (rust, ()) = timed(|| sides.rust.write_command(Cycles(clock), DRF));
    answer.expect("not refused");
    (ours, rust)
}

/// Both sides end what runs; how long each takes.
fn end(sides: &mut Sides) -> (f64, f64) {
    sides.clock = sides.deadline();
    let clock = sides.clock;
    let (ours, answer) = timed(|| sides.ours.advance(clock));
    let (rust, ()) = timed(|| sides.rust.advance(Cycles(clock)));
    answer.expect("not refused");
    (ours, rust)
}

/// The start of a refresh, if `starts`, and its end.
pub fn refresh(configuration: &Configuration, waveform: &Waveform, starts: bool, swing: &str) {
    let mut start = Row::new("the start of a refresh", 1);
    let what = format!("the end of a refresh, {}, {swing}", waveform.name);
    let mut finish = Row::new(what, 1);
    let mut sides = ready(configuration, waveform);
    let mut rng = Rng::new(SEED);
    let bytes = plane_bytes(configuration);
    for round in 0..WARM + ROUNDS {
        fill(&mut sides, &mut rng, bytes);
        let begun = begin(&mut sides);
        let ended = end(&mut sides);
        sides.compare();
        if round >= WARM {
            start.note(begun.0, begun.1);
            finish.note(ended.0, ended.1);
        }
    }
    if starts {
        start.print();
    }
    finish.print();
}

/// Two planes, a refresh and its end.
fn page(rng: &mut Rng, clock: u64, lasts: u64, bytes: usize) -> Stream {
    let (old, new) = (noise(rng, bytes), noise(rng, bytes));
    let end = Event {
        time: clock + lasts,
        kind: capture::ADVANCE,
        value: 0,
    };
    let events = sent(clock, DTM1, &old)
        .chain(sent(clock, DTM2, &new))
        .chain(sent(clock, DRF, &[]))
        .chain([end]);
    Stream::new(events.collect())
}

/// A whole page turn by one `run`, divided by `count`.
pub fn page_turn(configuration: &Configuration, what: &str, count: u64) {
    let mut row = Row::new(what, count);
    let mut sides = ready(configuration, &short());
    let mut rng = Rng::new(SEED);
    let bytes = plane_bytes(configuration);
    begin(&mut sides);
    let lasts = sides.deadline() - sides.clock;
    end(&mut sides);
    for round in 0..WARM + ROUNDS {
        let mut stream = page(&mut rng, sides.clock, lasts, bytes);
        let (ours, ()) = timed(|| stream.run_ours(&mut sides.ours));
        let (rust, ()) = timed(|| stream.run_rust(&mut sides.rust));
        sides.clock += lasts;
        sides.compare();
        assert_eq!(sides.ours.image().generation as usize, round + 2);
        if round >= WARM {
            row.note(ours, rust);
        }
    }
    row.print();
}
