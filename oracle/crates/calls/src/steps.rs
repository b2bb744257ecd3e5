//! How a trace's events are handed to the library: by single calls or by runs, and where the
//! rows are taken.

use oracle::capture::Event;
use oracle::rng::Rng;

/// An event with the way it goes. The marks stay with it when others are left out.
#[derive(Clone, Copy, Debug)]
pub struct Step {
    pub event: Event,
    /// With its neighbours of the same mark, in one call of `run`.
    pub by_run: bool,
    /// After it the rows are taken.
    pub takes: bool,
}

/// Past so many events, most of a trace goes by runs.
const LONG: usize = 12_000;
const LONGEST_RUN: u64 = 400;
const LONGEST_SINGLE: u64 = 60;

/// The share of runs in a trace.
#[derive(Clone, Copy)]
enum Runs {
    None,
    Some,
    All,
}

fn runs(rng: &mut Rng, events: usize) -> Runs {
    match rng.below(10) {
        _ if events > LONG => Runs::Some,
        0..=6 => Runs::None,
        7..=8 => Runs::Some,
        _ => Runs::All,
    }
}

/// Of 1,000 events, after how many the rows are taken.
fn takes(rng: &mut Rng) -> u64 {
    rng.pick(&[0, 0, 2, 10, 300])
}

/// The steps of a trace, marked by chance.
pub fn marked(rng: &mut Rng, events: &[Event]) -> Vec<Step> {
    let runs = runs(rng, events.len());
    let takes = takes(rng);
    let most_run = if events.len() > LONG {
        10 * LONGEST_RUN
    } else {
        LONGEST_RUN
    };
    let mut by_run = matches!(runs, Runs::All);
    let mut left = 0;
    events
        .iter()
        .map(|&event| {
            if left == 0 && matches!(runs, Runs::Some) {
                by_run = !by_run;
                left = rng.between(1, if by_run { most_run } else { LONGEST_SINGLE });
            }
            left = left.saturating_sub(1);
            Step {
                event,
                by_run,
                takes: rng.below(1_000) < takes,
            }
        })
        .collect()
}

/// The steps in the pieces that are handed over: a single call each, or as many as one run takes.
pub fn pieces(steps: &[Step]) -> impl Iterator<Item = &[Step]> {
    steps.chunk_by(|one, next| one.by_run && next.by_run && !one.takes)
}
