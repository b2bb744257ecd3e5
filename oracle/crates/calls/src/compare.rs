//! A whole trace through both sides, and its shortest form that still shows a difference.

use oracle::capture::Configuration;

use crate::beside::{Beside, Made};
use crate::difference::Difference;
use crate::steps::{Step, pieces};

/// A difference, and the index of the last event before it was seen; none at making.
#[derive(Clone, Debug)]
pub struct Found {
    pub event: Option<usize>,
    pub difference: Difference,
}

/// What both sides are shown to while a trace goes on.
pub trait Watch {
    fn refused(&mut self, _number: u8) {}
    fn piece(&mut self, _beside: &Beside, _steps: &[Step]) {}
    fn end(&mut self, _beside: &Beside) {}
}

/// Looks at nothing.
struct Blind;

impl Watch for Blind {}

/// Runs a trace through both sides up to the first difference.
pub fn trace(
    configuration: &Configuration,
    steps: &[Step],
    watch: &mut impl Watch,
) -> Result<(), Found> {
    let found = |event| move |difference| Found { event, difference };
    let mut beside = match Beside::make(configuration).map_err(found(None))? {
        Made::Both(beside) => beside,
        Made::Neither(number) => {
            watch.refused(number);
            return Ok(());
        }
    };
    let mut last = None;
    for piece in pieces(steps) {
        last = Some(last.map_or(0, |last| last + 1) + piece.len() - 1);
        met(&mut beside, piece).map_err(found(last))?;
        watch.piece(&beside, piece);
        if piece[piece.len() - 1].takes {
            beside.take().map_err(found(last))?;
        }
    }
    beside.end().map_err(found(last))?;
    watch.end(&beside);
    Ok(())
}

fn met(beside: &mut Beside, piece: &[Step]) -> Result<(), Difference> {
    match piece {
        [step] if !step.by_run => beside.single(step.event),
        _ => beside.run(piece),
    }
}

/// How often a shorter trace is tried.
const MOST_TRIES: usize = 4_000;

/// Looks for the same kind of difference in shorter traces.
struct Search<'a> {
    configuration: &'a Configuration,
    what: &'static str,
    tries: usize,
}

impl Search<'_> {
    /// Up to where `steps` show it, if they do.
    fn shows(&mut self, steps: &[Step]) -> Option<usize> {
        self.tries += 1;
        let found = trace(self.configuration, steps, &mut Blind).err()?;
        let count = found.event.map_or(0, |event| event + 1);
        (found.difference.what == self.what).then_some(count)
    }

    /// Takes `steps` instead of `kept` if they show it too.
    fn try_instead(&mut self, kept: &mut Vec<Step>, mut steps: Vec<Step>) -> bool {
        let shown = self.shows(&steps);
        if let Some(count) = shown {
            steps.truncate(count);
            *kept = steps;
        }
        shown.is_some()
    }

    /// Leaves runs of `length` steps out wherever the difference stays.
    fn leave_out(&mut self, kept: &mut Vec<Step>, length: usize) {
        let mut at = 0;
        while at < kept.len() && self.tries < MOST_TRIES {
            let mut fewer = kept.clone();
            fewer.drain(at..kept.len().min(at + length));
            if !self.try_instead(kept, fewer) {
                at += length;
            }
        }
    }
}

/// Fewer steps that show the same kind of difference: by single calls if that shows it, and with
/// every event left out that can be.
fn fewer(configuration: &Configuration, steps: &[Step], found: &Found) -> Vec<Step> {
    let mut search = Search {
        configuration,
        what: found.difference.what,
        tries: 0,
    };
    let mut kept = steps[..found.event.map_or(0, |event| event + 1)].to_vec();
    let plain = kept.iter().map(|&step| Step {
        by_run: false,
        takes: false,
        ..step
    });
    let plain = plain.collect();
    search.try_instead(&mut kept, plain);
    let mut length = kept.len().div_ceil(2);
    while length > 1 {
        search.leave_out(&mut kept, length);
        length = length.div_ceil(2).min(kept.len().div_ceil(2));
    }
    loop {
        let before = kept.len();
        search.leave_out(&mut kept, 1);
        if kept.len() == before {
            return kept;
        }
    }
}

/// A trace of as few steps, and what it shows.
pub fn reduced(configuration: &Configuration, steps: &[Step], found: Found) -> (Vec<Step>, Found) {
    let steps = fewer(configuration, steps, &found);
    let shown = trace(configuration, &steps, &mut Blind).err();
    (steps, shown.unwrap_or(found))
}
