//! `oracle replays`: captures and the published Rust's outputs, for the program `test_captures`.

use std::fs;
use std::io;
use std::path::Path;

use crate::cases;
use crate::generate::{self, rate, rules};
use crate::run;

/// How a capture ends.
#[derive(Clone, Copy, PartialEq, Eq)]
enum End {
    Refused,
    /// With a picture that a reset cut short.
    Interrupted,
    /// With any other picture.
    Whole,
}

const ENDS: [End; 3] = [End::Refused, End::Interrupted, End::Whole];

impl End {
    /// How many of `count` generated captures end so: one in eight is refused, and one in eight,
    /// which are rare among all, interrupted.
    fn share(self, count: usize) -> usize {
        match self {
            End::Refused | End::Interrupted => count / 8,
            End::Whole => count - count / 8 * 2,
        }
    }

    /// The most bytes of such a capture; an interrupted refresh takes some more.
    fn most_bytes(self) -> usize {
        match self {
            End::Refused | End::Whole => 1_500,
            End::Interrupted => 3_500,
        }
    }
}

/// To so many captures without a rate there is one with, and one by a host that chooses VCOM's rule.
const RATED_SHARE: usize = 2;
const RULED_SHARE: usize = 2;

/// The capture of a seed that has a rate.
fn rated(seed: u64) -> Option<Vec<u8>> {
    rate::board(seed).map(|_| generate::rated(seed))
}

/// The capture of a seed whose host chooses VCOM's rule, perhaps with a rate.
fn ruled(seed: u64) -> Option<Vec<u8>> {
    rules::rules(seed).map(|_| generate::make(seed))
}

/// How a capture ends, and its output.
fn played(file: &[u8]) -> (End, String) {
    match run::accept(file) {
        Err(refusal) => (End::Refused, run::refused(refusal)),
        Ok((capture, chip)) => {
            let outcome = run::events(chip, &capture.events, |_, _, _| ());
            let end = if outcome.image.interrupted {
                End::Interrupted
            } else {
                End::Whole
            };
            (end, run::report(&outcome))
        }
    }
}

/// What the program reads and what it has to write.
#[derive(Default)]
pub struct Sample {
    pub input: Vec<u8>,
    pub output: String,
}

impl Sample {
    /// A capture behind its length, and its output.
    fn add(&mut self, file: &[u8], output: &str) {
        let length = u32::try_from(file.len()).expect("a capture has fewer than 2^32 bytes");
        self.input.extend(length.to_le_bytes());
        self.input.extend(file);
        self.output += output;
    }

    /// The small cases, by name.
    fn add_cases(&mut self) {
        let mut cases = cases::all();
        cases.sort_by_key(|case| case.name);
        for case in cases {
            self.add(&case.file, &run::run(&case.file));
        }
    }

    /// So many captures that `make` gives of the seeds from `seed` on, the larger ones left out.
    fn add_generated(&mut self, seed: u64, count: usize, make: impl Fn(u64) -> Option<Vec<u8>>) {
        let mut left = ENDS.map(|end| end.share(count));
        let mut seeds = seed..;
        while left != [0; ENDS.len()] {
            let Some(seed) = seeds.next() else { return };
            let Some(file) = make(seed) else { continue };
            let (end, output) = played(&file);
            let left = &mut left[end as usize];
            if *left > 0 && file.len() <= end.most_bytes() {
                *left -= 1;
                self.add(&file, &output);
            }
        }
    }
}

pub fn sample(seed: u64, count: usize) -> Sample {
    let mut sample = Sample::default();
    sample.add_cases();
    sample.add_generated(seed, count, |seed| Some(generate::plain(seed)));
    sample.add_generated(seed, count / RATED_SHARE, rated);
    sample.add_generated(seed, count / RULED_SHARE, ruled);
    sample
}

/// Writes the program's `stdin` and `stdout`.
pub fn write(seed: u64, count: u64, directory: &Path) -> io::Result<()> {
    let sample = sample(seed, count as usize);
    fs::create_dir_all(directory)?;
    fs::write(directory.join("stdin"), sample.input)?;
    fs::write(directory.join("stdout"), sample.output)
}
