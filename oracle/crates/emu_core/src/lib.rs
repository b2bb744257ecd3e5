//! Ours, not published: the times and levels that the published files take from `emu_core`.
//!
//! Assumed: `Cycles` is a plain ordered count; `Frequency` rounds a duration up to whole cycles and
//! cycles down to whole nanoseconds, each held at 2^64 - 1, so that at 1 GHz both are the identity
//! on 64-bit numbers; `Level::from_bool(true)` is high.

use std::num::NonZeroU64;

const NANOSECONDS_A_SECOND: u128 = 1_000_000_000;

/// An instant, in cycles of a time base.
#[derive(Clone, Copy, Debug, PartialEq, Eq, PartialOrd, Ord, Hash)]
pub struct Cycles(pub u64);

impl Cycles {
    pub const ZERO: Cycles = Cycles(0);

    #[must_use]
    pub const fn get(self) -> u64 {
        self.0
    }
}

/// The rate of a time base.
#[derive(Clone, Copy, Debug, PartialEq, Eq)]
pub struct Frequency {
    hertz: NonZeroU64,
}

impl Frequency {
    #[must_use]
    pub const fn from_hertz(hertz: NonZeroU64) -> Frequency {
        Frequency { hertz }
    }

    /// The least count of cycles that lasts `nanos` nanoseconds.
    #[must_use]
    pub fn nanos_to_cycles(self, nanos: u128) -> Cycles {
        let scaled = nanos.saturating_mul(u128::from(self.hertz.get()));
        Cycles(held(scaled.div_ceil(NANOSECONDS_A_SECOND)))
    }

    /// The whole nanoseconds that `cycles` last.
    #[must_use]
    pub fn cycles_to_nanos(self, cycles: Cycles) -> u64 {
        let scaled = u128::from(cycles.get()) * NANOSECONDS_A_SECOND;
        held(scaled / u128::from(self.hertz.get()))
    }
}

fn held(value: u128) -> u64 {
    u64::try_from(value).unwrap_or(u64::MAX)
}

/// The level of a line.
#[derive(Clone, Copy, Debug, PartialEq, Eq)]
pub enum Level {
    Low,
    High,
}

impl Level {
    #[must_use]
    pub const fn from_bool(high: bool) -> Level {
        if high { Level::High } else { Level::Low }
    }
}

#[cfg(test)]
mod tests {
    use super::{Cycles, Frequency};
    use std::num::NonZeroU64;

    fn rate(hertz: u64) -> Frequency {
        Frequency::from_hertz(NonZeroU64::new(hertz).unwrap())
    }

    #[test]
    fn one_gigahertz_is_the_identity() {
        for ns in [0, 1, 999, u64::MAX - 1, u64::MAX] {
            assert_eq!(
                rate(1_000_000_000).nanos_to_cycles(u128::from(ns)),
                Cycles(ns)
            );
            assert_eq!(rate(1_000_000_000).cycles_to_nanos(Cycles(ns)), ns);
        }
    }

    #[test]
    fn other_rates_round_up_and_down() {
        assert_eq!(rate(3).nanos_to_cycles(1), Cycles(1));
        assert_eq!(rate(3).nanos_to_cycles(333_333_334), Cycles(2));
        assert_eq!(rate(3).cycles_to_nanos(Cycles(1)), 333_333_333);
        assert_eq!(rate(1).cycles_to_nanos(Cycles(u64::MAX)), u64::MAX);
    }
}
