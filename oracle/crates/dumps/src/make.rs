//! The dump of a seed: a generated capture written as a dump, or changes without any order.

use std::io;
use std::path::Path;

use oracle::capture::{CONFIGURATION_BYTES, Capture, Event, TAIL_BYTES};
use oracle::rng::Rng;
use oracle::{cases, generate};

use crate::batch::{self, Job};
use crate::judge::Form;
use crate::waves::{self, carried};
use crate::write;

/// Most dumps are short, so that many styles are seen.
const SHORT: u64 = 40;

pub struct Made {
    /// The configuration bytes, of a wrong length now and then.
    pub configuration: Vec<u8>,
    pub dump: Vec<u8>,
    /// The events that were written; none for changes without any order.
    pub events: Option<Vec<Event>>,
}

/// The configuration bytes and the events of a capture of some seed, also of a damaged one.
fn capture(rng: &mut Rng) -> (Vec<u8>, Vec<Event>) {
    let mut file = generate::ruled(rng.any());
    if file.len() < TAIL_BYTES {
        file = cases::example().file();
    }
    let capture = Capture::salvage(&file).expect("there is room for a tail");
    let tail = file.len() - TAIL_BYTES;
    let configuration = file[tail..tail + CONFIGURATION_BYTES].to_vec();
    (configuration, capture.events)
}

/// More events than a capture holds.
fn many(rng: &mut Rng) -> (Vec<u8>, Vec<Event>) {
    let (configuration, mut events) = capture(rng);
    while events.len() < 8_000 {
        events.extend(capture(rng).1);
    }
    (configuration, events)
}

/// The events, cut off early in most dumps.
fn some(rng: &mut Rng) -> (Vec<u8>, Vec<Event>) {
    let (configuration, mut events) = capture(rng);
    if rng.chance(70) {
        let most = rng.between(0, SHORT) as usize;
        let from = if rng.chance(20) {
            rng.below(events.len() as u64 + 1) as usize
        } else {
            0
        };
        events.drain(..from);
        events.truncate(most);
    }
    (configuration, events)
}

/// Of a wrong length now and then.
fn cut(rng: &mut Rng, mut configuration: Vec<u8>) -> Vec<u8> {
    if rng.chance(1) {
        let length = rng.pick(&[0, 1, 311, 313, 320, 460]);
        configuration.resize(length, 0);
    }
    configuration
}

/// The configuration bytes of some capture.
pub fn configuration(rng: &mut Rng) -> Vec<u8> {
    let configuration = capture(rng).0;
    cut(rng, configuration)
}

pub fn make(seed: u64) -> Made {
    let mut rng = Rng::new(seed);
    let (configuration, events) = if rng.below(250) == 0 {
        many(&mut rng)
    } else {
        some(&mut rng)
    };
    let configuration = cut(&mut rng, configuration);
    if rng.chance(10) {
        let waves = waves::noise(&mut rng);
        let share = rng.chance(50);
        return Made {
            configuration,
            dump: write::write(&mut rng, &waves, share),
            events: None,
        };
    }
    let events = carried(&events);
    let waves = waves::waves(&mut rng, &events);
    Made {
        configuration,
        dump: write::write(&mut rng, &waves, false),
        events: Some(events),
    }
}

/// A dump of a few events, or of changes without any order.
pub fn short(rng: &mut Rng) -> Vec<u8> {
    let mut events = capture(rng).1;
    if rng.chance(30) {
        let (waves, share) = (waves::noise(rng), rng.chance(50));
        return write::write(rng, &waves, share);
    }
    events.truncate(rng.between(0, 6) as usize);
    let waves = waves::waves(rng, &carried(&events));
    write::write(rng, &waves, false)
}

/// The most bytes of a dump that is stored.
const MOST_STORED: usize = 4_000;

/// Writes small dumps of the seeds from `seed` on as a batch of `jollanqe`.
pub fn write(seed: u64, count: usize, folder: &Path) -> io::Result<()> {
    let small = (seed..).map(|seed| (seed, make(seed)));
    let small = small.filter(|(_, made)| made.dump.len() <= MOST_STORED);
    let job = |(seed, made): (u64, Made)| {
        let name = format!("seed-{seed}");
        Job::new(name, made.configuration, made.dump, Form::Lines)
    };
    let jobs = small.map(job);
    let jobs: Vec<Job> = jobs
        .filter(|job| job.expected().len() <= MOST_STORED)
        .take(count)
        .collect();
    batch::write(folder, &jobs)
}
