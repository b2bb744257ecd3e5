//! The board's own clock (2026-05): its rate, and durations and cycles by the stand-in that the
//! Rust itself counts with.

use std::num::NonZeroU64;

use emu_core::{Cycles, Frequency};

/// The most Hz, and the rate of a board that names none.
pub const GIGAHERTZ: u64 = 1_000_000_000;

#[derive(Clone, Copy, Debug, PartialEq, Eq)]
pub struct Clock(Frequency);

impl Clock {
    /// The clock of a rate from 1 to 1,000,000,000 Hz.
    pub fn of(hertz: u64) -> Option<Clock> {
        let hertz = NonZeroU64::new(hertz).filter(|hertz| hertz.get() <= GIGAHERTZ)?;
        Some(Clock(Frequency::from_hertz(hertz)))
    }

    /// As the Rust takes it.
    pub fn time_base(self) -> Frequency {
        self.0
    }

    /// A duration in cycles, rounded up.
    pub fn cycles(self, ns: u64) -> u64 {
        self.0.nanos_to_cycles(u128::from(ns)).get()
    }

    /// Cycles in nanoseconds, rounded down and held.
    pub fn nanos(self, cycles: u64) -> u64 {
        self.0.cycles_to_nanos(Cycles(cycles))
    }
}
