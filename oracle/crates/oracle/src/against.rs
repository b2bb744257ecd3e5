//! `oracle compare` and `oracle damaged`: captures through the program `panel` and through the
//! Rust, every byte of the two outputs compared. The first difference is kept in `difference/`.

use std::fs;
use std::io::{self, ErrorKind, Write};
use std::path::Path;
use std::process::{Command, Stdio};
use std::time::{Duration, Instant};

use crate::capture::{
    EVENT_BYTES, MOST_BYTES, RATE_BYTES, RATED_TAIL_BYTES, TAIL_BYTES, TRAILER_BYTES, VCOM_RULE,
};
use crate::chip::Judges;
use crate::clock::GIGAHERTZ;
use crate::generate;
use crate::rng::Rng;
use crate::run;

/// How many captures go by between two lines of progress.
const PROGRESS: u64 = 10_000;

/// What a program writes for its input; an error where it does not end as it should.
pub fn output(program: &Path, bytes: &[u8]) -> io::Result<Vec<u8>> {
    let mut child = Command::new(program)
        .stdin(Stdio::piped())
        .stdout(Stdio::piped())
        .stderr(Stdio::piped())
        .spawn()?;
    if let Some(mut input) = child.stdin.take() {
        match input.write_all(bytes) {
            // A capture that is too large is not read to its end.
            Err(error) if error.kind() == ErrorKind::BrokenPipe => {}
            result => result?,
        }
    }
    let output = child.wait_with_output()?;
    if output.status.success() && output.stderr.is_empty() {
        return Ok(output.stdout);
    }
    Err(io::Error::other(format!(
        "{} ended with {}",
        program.display(),
        output.status
    )))
}

/// Keeps files by name in `difference/`.
pub fn keep(files: &[(&str, &[u8])]) -> io::Result<()> {
    let kept = Path::new("difference");
    fs::create_dir_all(kept)?;
    for (name, bytes) in files {
        fs::write(kept.join(name), bytes)?;
    }
    Ok(())
}

/// Holds `panel` to the Rust, and tells how many captures were equal.
pub struct Comparison<'a> {
    program: &'a Path,
    equal: u64,
    refused: u64,
    /// Captures of which a row of the Rust's is left out.
    left_out: u64,
    judges: Judges,
}

impl Comparison<'_> {
    pub fn by(program: &Path) -> Comparison<'_> {
        Comparison {
            program,
            equal: 0,
            refused: 0,
            left_out: 0,
            judges: Judges::default(),
        }
    }

    /// Whether the two outputs of a capture are equal; what differs is kept.
    fn holds(&mut self, name: &str, capture: &[u8]) -> io::Result<bool> {
        let judged = run::judge(capture);
        let rust = judged.text.into_bytes();
        let ours = output(self.program, capture);
        if ours.as_ref().is_ok_and(|ours| *ours == rust) {
            self.equal += 1;
            self.refused += u64::from(judged.is_refused);
            self.left_out += u64::from(judged.left_out > 0);
            self.judges.add(judged.judges);
            return Ok(true);
        }
        keep(&[("capture", capture), ("rust", &rust)])?;
        match ours {
            Ok(ours) => keep(&[("panel", &ours)])?,
            Err(error) => println!("{error}"),
        }
        println!("{name} differs: see difference/");
        Ok(false)
    }

    fn progress(&self, of: &str) {
        if self.equal.is_multiple_of(PROGRESS) {
            println!("{} equal{of}", self.equal);
        }
    }

    fn total(&self, different: u64) {
        println!(
            "{} equal ({} of them refused, {} with a row left out), {different} different",
            self.equal, self.refused, self.left_out
        );
        let Judges {
            first,
            alike,
            second,
            after,
        } = self.judges;
        println!(
            "refreshes: {first} of rule 1 and {alike} of rule 2 by the Rust; \
             {second} of rule 2 walked, and {after} of either after one of these"
        );
    }

    /// The generated captures of `seed`, `seed` + 1, ..
    pub fn generated(&mut self, count: u64, seed: u64) -> io::Result<bool> {
        for index in 0..count {
            let seed = seed + index;
            if !self.holds(&format!("seed {seed}"), &generate::make(seed))? {
                self.total(1);
                return Ok(false);
            }
            self.progress(&format!(" of {count}"));
        }
        self.total(0);
        Ok(true)
    }

    /// Damaged captures for so many seconds.
    pub fn damaged(&mut self, seconds: u64, seed: u64) -> io::Result<bool> {
        let (start, end) = (Instant::now(), Duration::from_secs(seconds));
        let mut rng = Rng::new(seed);
        while start.elapsed() < end {
            let capture = damage(&mut rng);
            if !self.holds(&format!("capture {} of seed {seed}", self.equal), &capture)? {
                self.total(1);
                return Ok(false);
            }
            self.progress("");
        }
        self.total(0);
        Ok(true)
    }
}

/// A generated capture after a few blows, or bytes without any order.
fn damage(rng: &mut Rng) -> Vec<u8> {
    if rng.chance(3) {
        let length = rng.edgy(&[0, 1, 319, 320, 321, 328, MOST_BYTES as u64], 0, 70_000);
        return (0..length).map(|_| rng.byte()).collect();
    }
    let mut file = generate::make(rng.any());
    for _ in 0..rng.between(1, 4) {
        blow(rng, &mut file);
    }
    file
}

fn place(rng: &mut Rng, file: &[u8]) -> usize {
    rng.below(file.len() as u64 + 1) as usize
}

/// A place in the configuration or the trailer, where most bytes decide something.
fn tail_place(rng: &mut Rng, file: &[u8]) -> usize {
    file.len() - rng.between(1, RATED_TAIL_BYTES.min(file.len()) as u64) as usize
}

fn blow(rng: &mut Rng, file: &mut Vec<u8>) {
    if file.is_empty() {
        file.push(rng.byte());
        return;
    }
    match rng.below(11) {
        // a bit, anywhere
        0 => {
            let at = rng.below(file.len() as u64) as usize;
            file[at] ^= 1 << rng.below(8);
        }
        // a byte of the tail
        1 => {
            let at = tail_place(rng, file);
            file[at] = rng.pick(&[0, 1, 2, 0x7F, 0x80, 0xFF]);
        }
        // cut anywhere
        2 => file.truncate(place(rng, file)),
        // bytes more, anywhere
        3 => {
            let at = place(rng, file);
            let more: Vec<u8> = (0..rng.between(1, 12)).map(|_| rng.byte()).collect();
            file.splice(at..at, more);
        }
        // bytes lost
        4 => {
            let at = rng.below(file.len() as u64) as usize;
            let end = (at + rng.between(1, 12) as usize).min(file.len());
            file.drain(at..end);
        }
        // a stretch repeated
        5 => {
            let at = rng.below(file.len() as u64) as usize;
            let end = (at + rng.between(1, 400) as usize).min(file.len());
            let again = file[at..end].to_vec();
            file.splice(at..at, again);
        }
        // two events exchanged
        6 => {
            let events = (file.len() / EVENT_BYTES) as u64;
            if events > 1 {
                let first = rng.below(events) as usize * EVENT_BYTES;
                let second = rng.below(events) as usize * EVENT_BYTES;
                for byte in 0..EVENT_BYTES {
                    file.swap(first + byte, second + byte);
                }
            }
        }
        // a rate put in, or what may be one taken out
        7 => {
            let Some(trailer) = file.len().checked_sub(TRAILER_BYTES) else {
                return;
            };
            if rng.chance(50) {
                let rate = rng.edgy(&[0, 1, 3, GIGAHERTZ, GIGAHERTZ + 1], 0, u64::MAX);
                file.splice(trailer..trailer, rate.to_le_bytes());
            } else {
                file.drain(trailer.saturating_sub(RATE_BYTES)..trailer);
            }
        }
        // the rule at making
        8 => {
            if let Some(flags) = file.len().checked_sub(TAIL_BYTES).map(|from| from + 1) {
                file[flags] ^= rng.pick(&[8, 8, 8, 16]);
            }
        }
        // an event of kind 6 in the place of another
        9 => {
            let events = (file.len() / EVENT_BYTES) as u64;
            if events > 0 {
                let at = rng.below(events) as usize * EVENT_BYTES;
                file[at + 8] = VCOM_RULE;
                file[at + 9] = rng.pick(&[0, 1, 1, 2, 2, 2, 3]);
            }
        }
        // a kind or a value of an event
        _ => {
            let events = (file.len() / EVENT_BYTES) as u64;
            if events > 0 {
                let at = rng.below(events) as usize * EVENT_BYTES;
                file[at + 8 + rng.below(2) as usize] = rng.byte();
            }
        }
    }
}
