//! Events as changes of the five signals, in one of many manners.

use oracle::capture::{ADVANCE, COMMAND, DATA, Event, RESET};
use oracle::rng::Rng;

use crate::signals::{IN_ORDER, Signal};

#[derive(Clone, Copy, Debug, PartialEq, Eq)]
pub struct Change {
    pub time: u64,
    pub signal: Signal,
    pub level: bool,
}

/// The changes of a dump, and the last time that it tells.
#[derive(Clone, Debug, PartialEq, Eq)]
pub struct Waves {
    pub changes: Vec<Change>,
    pub last: u64,
}

/// The events that a dump can carry, as it gives them back: no reads, times that do not fall, each
/// reset a change of the one before and the first an assertion, one advance at the end.
pub fn carried(events: &[Event]) -> Vec<Event> {
    let (mut now, mut is_asserted) = (0, false);
    let mut carried = Vec::new();
    for event in events {
        now = now.max(event.time);
        match event.kind {
            COMMAND | DATA => (),
            RESET if event.value <= 1 && (event.value == 1) != is_asserted => {
                is_asserted = !is_asserted;
            }
            _ => continue,
        }
        carried.push(Event {
            time: now,
            ..*event
        });
    }
    carried.push(Event {
        time: now,
        kind: ADVANCE,
        value: 0,
    });
    carried
}

/// How bytes are sent; percents.
struct Manner {
    /// `clk` rests high between bytes.
    rests_high: bool,
    /// `cs` rises after a byte.
    deselects: u64,
    /// A byte is begun and dropped by a rise of `cs`.
    drops: u64,
    /// Edges of `clk` while `cs` is 1.
    strays: u64,
    /// `dc` has the wrong level until the eighth bit.
    late_dc: u64,
    /// `dc` and `mosi` change where nobody looks.
    flutters: u64,
    /// The bits of a byte come before its time, not all at it.
    spreads: u64,
    /// A byte begins before the reset that comes before it.
    straddles: u64,
}

impl Manner {
    fn plain() -> Manner {
        Manner {
            rests_high: false,
            deselects: 100,
            drops: 0,
            strays: 0,
            late_dc: 0,
            flutters: 0,
            spreads: 100,
            straddles: 0,
        }
    }

    fn draw(rng: &mut Rng) -> Manner {
        let mut percent = || rng.pick(&[0, 0, 0, 5, 30, 100]);
        let mut manner = Manner {
            deselects: percent(),
            drops: percent().min(30),
            strays: percent().min(30),
            late_dc: percent(),
            flutters: percent().min(30),
            spreads: percent(),
            straddles: percent(),
            ..Manner::plain()
        };
        manner.rests_high = rng.chance(50);
        manner
    }
}

/// The signals while changes are written.
struct Wire<'a> {
    rng: &'a mut Rng,
    manner: Manner,
    levels: [bool; IN_ORDER.len()],
    now: u64,
    /// Bits of the next byte that have been sent.
    begun: u8,
    changes: Vec<Change>,
}

impl Wire<'_> {
    fn level(&self, signal: Signal) -> bool {
        self.levels[signal as usize]
    }

    fn set(&mut self, signal: Signal, level: bool) {
        if self.level(signal) != level {
            self.levels[signal as usize] = level;
            let time = self.now;
            self.changes.push(Change {
                time,
                signal,
                level,
            });
        }
    }

    /// A moment between now and `time`, or `time` itself.
    fn wait(&mut self, time: u64) {
        if self.rng.chance(self.manner.spreads) {
            let least = self.now + (time - self.now) / 2;
            self.now = if self.rng.chance(70) {
                self.now + (time - self.now) / 8
            } else {
                self.rng.between(self.now, least)
            };
        } else {
            self.now = time;
        }
    }

    fn flutter(&mut self, signal: Signal) {
        if self.rng.chance(self.manner.flutters) {
            let level = self.level(signal);
            self.set(signal, !level);
        }
    }

    /// One bit: `clk` is 0, `mosi` stands, `clk` rises.
    fn bit(&mut self, bit: bool) {
        self.set(Signal::Clk, false);
        self.flutter(Signal::Mosi);
        self.flutter(Signal::Dc);
        self.set(Signal::Mosi, bit);
        self.set(Signal::Clk, true);
        self.flutter(Signal::Mosi);
    }

    fn select(&mut self, time: u64) {
        if self.level(Signal::Cs) {
            self.wait(time);
            self.set(Signal::Cs, false);
        }
    }

    /// Bits that a rise of `cs` drops; with `cs` at 1, edges that nobody counts.
    fn waste(&mut self, time: u64) {
        if self.rng.chance(self.manner.drops) {
            self.select(time);
            for _ in 0..self.rng.between(1, 7) {
                self.wait(time);
                let bit = self.rng.chance(50);
                self.bit(bit);
            }
            self.set(Signal::Cs, true);
        }
        if self.level(Signal::Cs) && self.rng.chance(self.manner.strays) {
            for _ in 0..self.rng.between(1, 20) {
                self.wait(time);
                let bit = self.rng.chance(50);
                self.bit(bit);
            }
        }
    }

    /// The bits of a byte up to number `end`, at most 7, none of them later than `time`.
    fn bits(&mut self, byte: u8, end: u8, time: u64) {
        if self.begun == 0 {
            self.waste(time);
            self.select(time);
        }
        while self.begun < end {
            self.wait(time);
            self.begun += 1;
            self.bit(byte >> (8 - self.begun) & 1 == 1);
        }
    }

    /// A byte whose eighth bit comes at `time`.
    fn byte(&mut self, is_data: bool, byte: u8, time: u64) {
        if self.begun == 0 {
            let is_late = self.rng.chance(self.manner.late_dc);
            self.set(Signal::Dc, is_data != is_late);
        }
        self.bits(byte, 7, time);
        self.begun = 0;
        self.now = time;
        self.set(Signal::Clk, false);
        self.set(Signal::Mosi, byte & 1 == 1);
        self.set(Signal::Dc, is_data);
        self.set(Signal::Clk, true);
        if !self.manner.rests_high {
            self.set(Signal::Clk, false);
        }
        if self.rng.chance(self.manner.deselects) {
            self.set(Signal::Cs, true);
        }
    }

    /// Some bits of a byte that comes after a reset.
    fn straddle(&mut self, next: Option<&Event>, time: u64) {
        if let Some(next) = next
            && next.kind != RESET
            && next.kind != ADVANCE
            && self.begun == 0
            && self.rng.chance(self.manner.straddles)
        {
            let end = self.rng.between(1, 7) as u8;
            self.bits(next.value, end, time);
        }
    }
}

/// The changes of these events in a manner; the first values stand at 0.
fn waved(rng: &mut Rng, manner: Manner, events: &[Event]) -> Waves {
    let mut wire = Wire {
        rng,
        manner,
        levels: [true; IN_ORDER.len()],
        now: 0,
        begun: 0,
        changes: Vec::new(),
    };
    for signal in [Signal::Dc, Signal::Clk, Signal::Mosi] {
        if wire.rng.chance(50) {
            wire.set(signal, false);
        }
    }
    for (index, event) in events.iter().enumerate() {
        match event.kind {
            COMMAND | DATA => wire.byte(event.kind == DATA, event.value, event.time),
            RESET => {
                wire.straddle(events.get(index + 1), event.time);
                wire.now = event.time;
                wire.set(Signal::Rst, event.value == 0);
            }
            _ => (),
        }
    }
    Waves {
        changes: wire.changes,
        last: events.last().map_or(0, |event| event.time),
    }
}

/// The changes that carry these events, as `carried` gives them.
pub fn waves(rng: &mut Rng, events: &[Event]) -> Waves {
    let manner = Manner::draw(rng);
    waved(rng, manner, events)
}

/// Changes without any order, on few codes or on five.
pub fn noise(rng: &mut Rng) -> Waves {
    let mut time = if rng.chance(90) { 0 } else { rng.wide(64) };
    let mut changes = Vec::new();
    for _ in 0..rng.between(0, 300) {
        if rng.chance(30) {
            let step = rng.wide(20);
            time = time.saturating_add(step);
        }
        let signal = match rng.below(20) {
            0 => Signal::Cs,
            1 => Signal::Dc,
            2 => Signal::Rst,
            3..=7 => Signal::Mosi,
            _ => Signal::Clk,
        };
        let level = rng.chance(if signal == Signal::Cs { 20 } else { 50 });
        changes.push(Change {
            time,
            signal,
            level,
        });
    }
    Waves {
        changes,
        last: time,
    }
}
