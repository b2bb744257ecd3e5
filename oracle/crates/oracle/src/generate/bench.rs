//! A capture under construction, with the published chip running beside it.

use crate::capture::{self, Capture, Configuration, Event};
use crate::chip::Chip;
use crate::clock::Clock;
use crate::rng::Rng;
use crate::run;

/// A panel to drive: its configuration, and what a run must know to drive it well.
pub struct Panel {
    pub rng: Rng,
    pub configuration: Configuration,
    /// Frames of a usual level that make a full swing.
    pub frames: u64,
    /// When the first event comes.
    pub start: u64,
    /// How much later each further event comes.
    pub pace: u64,
    /// Most of VCOM's tables have a timing of their own.
    pub own_vcom: bool,
}

/// The columns and rows that a stream fills, their ends included.
#[derive(Clone, Copy, PartialEq, Eq)]
pub struct Area {
    pub columns: (u16, u16),
    pub rows: (u16, u16),
}

pub struct Bench {
    pub rng: Rng,
    pub configuration: Configuration,
    /// The board's clock.
    pub board: Clock,
    pub frames: u64,
    pub own_vcom: bool,
    /// The time of the next event.
    pub clock: u64,
    pace: u64,
    /// The largest time sent: the chip's own clock.
    now: u64,
    chip: Chip,
    /// The most events, and those so far.
    most: usize,
    events: Vec<Event>,
    /// What the run believes to be set: the frame-rate code, the area of start and
    /// resolution, and the area that streams fill.
    pub pll: u8,
    pub active: Area,
    pub area: Area,
}

pub const WHOLE_RAM: Area = Area {
    columns: (0, 799),
    rows: (0, 599),
};
pub const RESET_PLL: u8 = 6;

impl Bench {
    /// A run whose capture the program takes.
    pub fn new(panel: Panel) -> Bench {
        Bench {
            most: panel.configuration.most_events(),
            ..Bench::long(panel)
        }
    }

    /// A run of any length, on a panel of any size.
    pub fn long(panel: Panel) -> Bench {
        let in_range = "a panel is made to be in range";
        let chip = run::make_any(&panel.configuration)
            .expect(in_range)
            .without_pictures();
        Bench {
            board: panel.configuration.clock().expect(in_range),
            rng: panel.rng,
            configuration: panel.configuration,
            frames: panel.frames,
            own_vcom: panel.own_vcom,
            clock: panel.start,
            pace: panel.pace,
            now: 0,
            chip,
            most: usize::MAX,
            events: Vec::new(),
            pll: RESET_PLL,
            active: WHOLE_RAM,
            area: WHOLE_RAM,
        }
    }

    pub fn has_room(&self) -> bool {
        self.events.len() < self.most
    }

    pub fn capture(self) -> Capture {
        Capture {
            configuration: self.configuration,
            events: self.events,
        }
    }

    /// Sends an event at the clock, unless the capture is full.
    fn event(&mut self, kind: u8, value: u8) {
        if self.events.len() == self.most {
            return;
        }
        let time = self.clock;
        let event = Event { time, kind, value };
        run::step(&mut self.chip, event);
        self.events.push(event);
        self.now = self.now.max(time);
        self.clock = time.saturating_add(self.pace);
    }

    pub fn command(&mut self, command: u8, data: &[u8]) {
        self.event(capture::COMMAND, command);
        self.data(data);
    }

    pub fn data(&mut self, bytes: &[u8]) {
        for &byte in bytes {
            self.event(capture::DATA, byte);
        }
    }

    pub fn noise(&mut self, count: u64) {
        for _ in 0..count {
            let byte = self.rng.byte();
            self.event(capture::DATA, byte);
        }
    }

    pub fn reads(&mut self, count: u64) {
        for _ in 0..count {
            self.event(capture::READ, 0);
        }
    }

    pub fn advance_to(&mut self, time: u64) {
        self.clock = time;
        self.event(capture::ADVANCE, 0);
    }

    pub fn assert_reset(&mut self) {
        self.event(capture::RESET, 1);
        self.pll = RESET_PLL;
        self.active = WHOLE_RAM;
        self.area = WHOLE_RAM;
    }

    pub fn release_reset(&mut self) {
        self.event(capture::RESET, 0);
    }

    pub fn now(&self) -> u64 {
        self.now
    }

    pub fn deadline(&self) -> Option<u64> {
        self.chip.next_deadline().map(|end| end.get())
    }

    /// The period that the next refresh is believed to have.
    pub fn period(&self) -> u64 {
        self.configuration.periods[usize::from(self.pll & 0x1F)]
    }

    /// Lets a running operation end, in one of the ways a host may meet its end.
    pub fn settle(&mut self) {
        let Some(end) = self.deadline() else {
            return;
        };
        match self.rng.below(10) {
            0..=4 => self.advance_to(end),
            5 => {
                self.advance_to(end.saturating_sub(1));
                self.advance_to(end);
            }
            6 => self.advance_to(end.saturating_add(1)),
            7 => {
                let late = self.rng.wide(20);
                self.advance_to(end.saturating_add(late));
            }
            8 => self.clock = end,
            _ => self.poll(end),
        }
    }

    /// Asks a few times on the way to `end`.
    fn poll(&mut self, end: u64) {
        for _ in 0..self.rng.between(1, 3) {
            let time = self.rng.between(self.now.min(end), end);
            self.advance_to(time);
        }
        self.command(0x71, &[]);
        self.reads(1);
        self.advance_to(end);
    }

    /// A host clock that goes back: for one event, or from here on.
    pub fn slip(&mut self) {
        let clock = self.clock;
        self.clock = self.rng.between(0, clock);
        match self.rng.below(3) {
            0 => self.event(capture::ADVANCE, 0),
            1 => self.reads(1),
            _ => self.command(0x71, &[]),
        }
        if self.rng.chance(70) {
            self.clock = clock;
        }
    }
}
