//! `dumps compare`, `pieces`, `made`, `fuzz`: dumps through `jollanqe vcd` and through the reader
//! and the Rust, every byte compared. The first difference is kept in `difference/`.

use std::io;
use std::os::fd::OwnedFd;
use std::os::unix::net::UnixDatagram;
use std::path::Path;
use std::process::Stdio;
use std::time::{Duration, Instant};

use oracle::rng::Rng;
use oracle::script::example_panel;

use crate::batch::{self, Job, Program};
use crate::cases;
use crate::judge::Form;
use crate::make;
use crate::mutate;
use crate::real;

const JOBS: u64 = 200;
/// Percent of the generated dumps that get a blow.
const BROKEN: u64 = 5;
/// How many dumps go by between two lines of progress.
const PROGRESS: u64 = 10_000;
/// The most bytes of a dump that goes piece by piece: no more than a reader asks for at once.
const MOST_IN_PIECES: usize = 60_000;

fn form(rng: &mut Rng) -> Form {
    match rng.below(10) {
        0 => Form::Pgm(None),
        1 => Form::Png(None),
        2 => Form::Pgm(Some(rng.pick(&[0, 1, 255, 256, 4_095, 65_535]))),
        3 => Form::Png(Some(rng.pick(&[0, 255, 65_535]))),
        _ => Form::Lines,
    }
}

fn generated(seed: u64) -> Job {
    let mut made = make::make(seed);
    let mut rng = Rng::new(!seed);
    if rng.chance(BROKEN) {
        mutate::strike(&mut rng, &mut made.dump);
    }
    let form = form(&mut rng);
    let name = format!("seed {seed}");
    let job = Job::new(name, made.configuration, made.dump, form);
    if rng.chance(30) { job.to_file() } else { job }
}

/// What was compared so far.
#[derive(Default)]
struct Tally {
    equal: u64,
    bytes: u64,
    by_number: [u64; 13],
}

impl Tally {
    fn add(&mut self, jobs: &[Job]) {
        for job in jobs {
            self.equal += 1;
            self.bytes += job.dump.len() as u64;
            self.by_number[job.number().min(12)] += 1;
        }
    }

    fn progress(&self, before: u64) {
        if self.equal / PROGRESS != before / PROGRESS {
            println!("{} equal", self.equal);
        }
    }

    fn total(&self, is_equal: bool) {
        let numbers = (1..13)
            .filter(|&number| self.by_number[number] > 0)
            .map(|number| format!("{} by {number}", self.by_number[number]));
        let numbers: Vec<String> = numbers.collect();
        println!(
            "{} equal, {} MB ({} played, refused {}), {} different",
            self.equal,
            self.bytes / 1_000_000,
            self.by_number[0],
            numbers.join(", "),
            u8::from(!is_equal)
        );
    }
}

/// Holds the program to batches until there are no more.
fn batches(
    program: &Path,
    mut next: impl FnMut() -> io::Result<Option<Vec<Job>>>,
) -> io::Result<bool> {
    let program = Program::by(program)?;
    let mut tally = Tally::default();
    while let Some(jobs) = next()? {
        if !program.keeps(&jobs)? {
            tally.total(false);
            return Ok(false);
        }
        let before = tally.equal;
        tally.add(&jobs);
        tally.progress(before);
    }
    tally.total(true);
    Ok(true)
}

/// The dumps of `seed`, `seed` + 1, ..
pub fn compare(program: &Path, count: u64, seed: u64) -> io::Result<bool> {
    let (mut at, end) = (seed, seed + count);
    batches(program, || {
        let upto = end.min(at + JOBS);
        let jobs: Vec<Job> = (at..upto).map(generated).collect();
        at = upto;
        Ok((!jobs.is_empty()).then_some(jobs))
    })
}

/// Dumps after a few blows, for so many seconds.
pub fn fuzz(program: &Path, seconds: u64, seed: u64) -> io::Result<bool> {
    let (start, end) = (Instant::now(), Duration::from_secs(seconds));
    let mut rng = Rng::new(seed);
    let (mut count, made) = (0, cases::all());
    batches(program, || {
        if start.elapsed() >= end {
            return Ok(None);
        }
        let jobs = (0..JOBS).map(|_| {
            count += 1;
            let name = format!("dump {count} of seed {seed}");
            let dump = mutate::mutated(&mut rng, &made);
            let configuration = if rng.chance(90) {
                cases::bytes(&example_panel())
            } else {
                make::configuration(&mut rng)
            };
            Job::new(name, configuration, dump, Form::Lines)
        });
        Ok(Some(jobs.collect()))
    })
}

/// The dumps made by hand, by the answers that were written down, and the real ones of a folder.
pub fn made(program: &Path, folder: &Path) -> io::Result<bool> {
    let mut jobs = cases::jobs();
    jobs.extend(real::jobs(folder)?);
    let mut left = Some(jobs);
    batches(program, || Ok(left.take()))
}

/// What the program writes for a dump that comes piece by piece on standard input. A piece is a
/// datagram, so that no read gives more than one; an empty one is the end.
fn in_pieces(program: &Program, job: &Job, size: usize) -> io::Result<Vec<u8>> {
    program.put(0, job)?;
    let (near, far) = UnixDatagram::pair()?;
    let child = program
        .command()
        .args(["vcd", "0.config", "-"])
        .args(job.form().words().split(' '))
        .stdin(Stdio::from(OwnedFd::from(far)))
        .spawn()?;
    for piece in job.dump.chunks(size).chain([&[][..]]) {
        // A program that reads no further has its answer already.
        if near.send(piece).is_err() {
            break;
        }
    }
    let output = child.wait_with_output()?;
    if output.status.success() {
        return Ok(output.stdout);
    }
    Err(io::Error::other(output.status.to_string()))
}

/// Generated dumps and those made by hand on standard input, in pieces of 1 to 64 bytes.
pub fn pieces(program: &Path, count: u64, seed: u64) -> io::Result<bool> {
    let program = Program::by(program)?;
    let mut tally = Tally::default();
    let mut rng = Rng::new(seed);
    let made = cases::jobs().into_iter();
    for job in made.chain((seed..seed + count).map(generated)) {
        if job.dump.len() > MOST_IN_PIECES {
            continue;
        }
        let size = rng.between(1, 64) as usize;
        let said = in_pieces(&program, &job, size);
        if !said.as_ref().is_ok_and(|said| said == job.expected()) {
            println!("pieces of {size} bytes");
            let said = said.unwrap_or_else(|error| error.to_string().into_bytes());
            batch::keep(&job, &said)?;
            tally.total(false);
            return Ok(false);
        }
        let before = tally.equal;
        tally.add(&[job]);
        tally.progress(before);
    }
    tally.total(true);
    Ok(true)
}
