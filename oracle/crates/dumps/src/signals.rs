//! The five signals of a dump, and the events that they make: request 2026-01, sentence by
//! sentence.

use std::collections::HashMap;

use oracle::capture::{ADVANCE, COMMAND, DATA, Event, RESET};

use crate::grammar::{self, Act, Dump, Value};

/// The signals in the order named, in which those of one code change.
#[derive(Clone, Copy, Debug, PartialEq, Eq)]
pub enum Signal {
    Cs,
    Dc,
    Clk,
    Mosi,
    Rst,
}

pub const IN_ORDER: [Signal; 5] = [
    Signal::Cs,
    Signal::Dc,
    Signal::Clk,
    Signal::Mosi,
    Signal::Rst,
];

impl Signal {
    pub fn name(self) -> &'static str {
        match self {
            Signal::Cs => "cs",
            Signal::Dc => "dc",
            Signal::Clk => "clk",
            Signal::Mosi => "mosi",
            Signal::Rst => "rst",
        }
    }

    fn of(name: &[u8]) -> Option<Signal> {
        IN_ORDER
            .into_iter()
            .find(|signal| signal.name().as_bytes() == name)
    }
}

/// Why a dump is turned back.
#[derive(Clone, Copy, Debug, PartialEq, Eq)]
pub enum Fault {
    Malformed,
    Signals,
}

impl Fault {
    pub fn number(self) -> u8 {
        match self {
            Fault::Malformed => 11,
            Fault::Signals => 12,
        }
    }
}

impl From<grammar::Malformed> for Fault {
    fn from(_: grammar::Malformed) -> Fault {
        Fault::Malformed
    }
}

/// The signals on each code, in the order named; a signal declared twice stands twice.
type Codes<'a> = HashMap<&'a [u8], Vec<Signal>>;

fn codes<'a>(dump: &Dump<'a>) -> Codes<'a> {
    let mut codes = Codes::new();
    for signal in IN_ORDER {
        for variable in &dump.variables {
            if Signal::of(variable.name) == Some(signal) {
                codes.entry(variable.code).or_default().push(signal);
            }
        }
    }
    codes
}

/// A time that goes back, or an x, z or real on one of the five.
fn is_malformed(dump: &Dump, codes: &Codes) -> bool {
    let mut now = 0;
    dump.acts.iter().any(|act| match *act {
        Act::Time(time) => time < std::mem::replace(&mut now, time),
        Act::Change { code, value } => !matches!(value, Value::Bit(_)) && codes.contains_key(code),
    })
}

/// Each of the five declared once, and no wider than a bit.
fn is_complete(dump: &Dump) -> bool {
    IN_ORDER.into_iter().all(|signal| {
        let mut named = dump
            .variables
            .iter()
            .filter(|variable| Signal::of(variable.name) == Some(signal));
        let first = named.next();
        first.is_some_and(|variable| !variable.is_wide) && named.next().is_none()
    })
}

/// The levels of the five, the bits of a begun byte, and the events so far.
struct Bus {
    levels: [bool; IN_ORDER.len()],
    bits: Vec<bool>,
    now: u64,
    events: Vec<Event>,
}

impl Bus {
    fn level(&self, signal: Signal) -> bool {
        self.levels[signal as usize]
    }

    fn event(&mut self, kind: u8, value: u8) {
        let time = self.now;
        self.events.push(Event { time, kind, value });
    }

    fn set(&mut self, signal: Signal, level: bool) {
        if self.level(signal) == level {
            return;
        }
        self.levels[signal as usize] = level;
        match signal {
            Signal::Cs if level => self.bits.clear(),
            Signal::Clk if level && !self.level(Signal::Cs) => self.take(),
            Signal::Rst => self.event(RESET, u8::from(!level)),
            _ => (),
        }
    }

    /// A bit, and the byte with the eighth.
    fn take(&mut self) {
        self.bits.push(self.level(Signal::Mosi));
        if self.bits.len() == 8 {
            let byte = self
                .bits
                .drain(..)
                .fold(0, |byte, bit| byte << 1 | u8::from(bit));
            let kind = if self.level(Signal::Dc) {
                DATA
            } else {
                COMMAND
            };
            self.event(kind, byte);
        }
    }
}

/// The events of a dump, or why it is turned back.
pub fn events(dump: &[u8]) -> Result<Vec<Event>, Fault> {
    let dump = grammar::read(dump)?;
    let codes = codes(&dump);
    if is_malformed(&dump, &codes) {
        return Err(Fault::Malformed);
    }
    if !is_complete(&dump) {
        return Err(Fault::Signals);
    }
    let mut bus = Bus {
        levels: [true; IN_ORDER.len()],
        bits: Vec::new(),
        now: 0,
        events: Vec::new(),
    };
    for act in &dump.acts {
        match *act {
            Act::Time(time) => bus.now = time,
            Act::Change { code, value } => {
                for &signal in codes.get(code).into_iter().flatten() {
                    bus.set(signal, value == Value::Bit(true));
                }
            }
        }
    }
    bus.event(ADVANCE, 0);
    Ok(bus.events)
}
