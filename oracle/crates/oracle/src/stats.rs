//! `oracle stats`: what the generated captures hold, and what the published Rust made of them.

use std::thread;

use crate::capture::{
    Capture, MOST_EVENTS, MOST_RATED_EVENTS, RATED_TAIL_BYTES, TAIL_BYTES, TRAILER_BYTES, Trailer,
};
use crate::generate;
use crate::refusal::Refusal;
use crate::run;
use crate::tally::Tally;
use crate::watch;

const THREADS: u64 = 2;

/// Every fault of a file, in the order of the tests; those behind 8 where they can be read.
fn faults(file: &[u8]) -> Vec<Refusal> {
    let mut faults = Vec::new();
    if !Capture::is_whole(file) {
        faults.push(Refusal::BrokenCapture);
    }
    let Some(capture) = Capture::salvage(file) else {
        return faults;
    };
    let of = &capture.configuration;
    for (met, refusal) in [
        (!capture.is_listed(), Refusal::BadEvent),
        (of.sources == 0 || of.gates == 0, Refusal::EmptyPanel),
        (of.sources > 800 || of.gates > 600, Refusal::OversizedPanel),
        (
            of.full_swing.wrapping_sub(1) >= i64::MAX as u64,
            Refusal::Swing,
        ),
        (of.periods.contains(&0), Refusal::FramePeriod),
        (of.clock().is_err(), Refusal::Rate),
        (of.pixels() > run::MOST_PIXELS, Refusal::TooManyPixels),
    ] {
        if met {
            faults.push(refusal);
        }
    }
    faults
}

fn add_refused(tally: &mut Tally, file: &[u8], refusal: Refusal) {
    *tally.refused.entry(refusal).or_default() += 1;
    let salvaged = Capture::salvage(file);
    tally.add_rate(
        salvaged.and_then(|capture| capture.configuration.rate),
        None,
    );
    let faults = faults(file);
    assert_eq!(
        faults.first(),
        Some(&refusal),
        "the first fault is the answer"
    );
    match faults[..] {
        [_] => tally.one_fault += 1,
        [first, second] => {
            let pair = (first.number(), second.number());
            *tally.pairs.entry(pair).or_default() += 1;
        }
        _ => {}
    }
    for (met, item) in refused_items(file, refusal) {
        *tally.seen.entry(item).or_default() += u64::from(met);
    }
}

/// The items of the coverage list that only a refused file can show.
fn refused_items(file: &[u8], refusal: Refusal) -> [(bool, &'static str); 5] {
    let broken = refusal == Refusal::BrokenCapture;
    let has = |events: usize, tail: usize| file.len() == 10 * events + tail;
    let trailer = file.len().checked_sub(TRAILER_BYTES);
    let wraps = trailer.is_some_and(|start| {
        let Trailer { offset, count } = Trailer::decode(&file[start..]);
        count.wrapping_mul(10) == offset && u64::from(count) * 10 != u64::from(offset)
    });
    let halved = trailer.is_some_and(|start| {
        let offset = Trailer::decode(&file[start..]).offset as usize;
        offset.checked_add(TAIL_BYTES + 4) == Some(file.len())
    });
    let pixels = Capture::salvage(file).map_or(0, |capture| capture.configuration.pixels());
    let crowded = refusal == Refusal::TooManyPixels;
    [
        (
            broken && has(MOST_EVENTS + 1, TAIL_BYTES),
            watch::ONE_EVENT_TOO_MANY,
        ),
        (
            broken && has(MOST_RATED_EVENTS + 1, RATED_TAIL_BYTES),
            watch::ONE_RATED_EVENT_TOO_MANY,
        ),
        (broken && halved, watch::HALF_A_RATE),
        (broken && wraps, watch::WRAPPING_COUNT),
        (
            crowded && pixels == run::MOST_PIXELS + 1,
            watch::ONE_PIXEL_TOO_MANY,
        ),
    ]
}

fn add_capture(tally: &mut Tally, seed: u64) {
    let file = generate::make(seed);
    tally.captures += 1;
    let (capture, chip) = match run::accept(&file) {
        Err(refusal) => return add_refused(tally, &file, refusal),
        Ok(accepted) => accepted,
    };
    tally.accepted += 1;
    tally.events += capture.events.len() as u64;
    tally.pixels += capture.configuration.pixels();
    let outcome = run::events(chip, &capture.events, |_, _, _| ());
    tally.add_rows(&outcome.log.stored);
    tally.dropped += outcome.log.dropped;
    tally.captures_with_dropped += u64::from(outcome.log.dropped != 0);
    tally.judges.add(outcome.judges);
    let facts = watch::facts(&capture);
    tally.add_rate(capture.configuration.rate, Some(&facts));
    tally.add_facts(facts);
}

pub fn stats(seed: u64, count: u64) -> String {
    let workers: Vec<_> = (0..THREADS)
        .map(|worker| {
            thread::spawn(move || {
                let mut tally = Tally::default();
                for index in (worker..count).step_by(THREADS as usize) {
                    add_capture(&mut tally, seed.wrapping_add(index));
                }
                tally
            })
        })
        .collect();
    let mut whole = Tally::default();
    for worker in workers {
        whole.merge(worker.join().expect("a worker counts to its end"));
    }
    whole.report()
}
