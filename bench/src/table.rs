//! The table: for each row the least time of some rounds, of ours and of the Rust.

use std::hint::black_box;

use crate::clock;

pub const ROUNDS: usize = 25;

/// The least nanoseconds so far.
pub struct Row {
    what: String,
    /// What the times are divided by.
    count: u64,
    ours: f64,
    rust: f64,
}

/// How long `work` takes by this thread's processor time, in nanoseconds, and what it gives.
pub fn timed<T>(work: impl FnOnce() -> T) -> (f64, T) {
    let start = clock::thread_nanoseconds();
    let result = black_box(work());
    ((clock::thread_nanoseconds() - start) as f64, result)
}

pub fn head() {
    println!("| nanoseconds, best of {ROUNDS} rounds | ours | the Rust | ratio |");
    println!("|---|---|---|---|");
}

impl Row {
    pub fn new(what: impl Into<String>, count: u64) -> Row {
        Row {
            what: what.into(),
            count,
            ours: f64::INFINITY,
            rust: f64::INFINITY,
        }
    }

    /// A round of both.
    pub fn note(&mut self, ours: f64, rust: f64) {
        self.ours = self.ours.min(ours);
        self.rust = self.rust.min(rust);
    }

    pub fn print(&self) {
        let each = |time: f64| grouped(time / self.count as f64);
        println!(
            "| {} | {} | {} | {:.2} |",
            self.what,
            each(self.ours),
            each(self.rust),
            self.ours / self.rust
        );
    }
}

/// A time with a decimal if it is short, its thousands apart if it is long.
fn grouped(time: f64) -> String {
    if time < 100.0 {
        return format!("{time:.2}");
    }
    let digits = format!("{time:.0}");
    let mut text = String::new();
    for (index, digit) in digits.chars().enumerate() {
        if index > 0 && (digits.len() - index).is_multiple_of(3) {
            text.push(',');
        }
        text.push(digit);
    }
    text
}
