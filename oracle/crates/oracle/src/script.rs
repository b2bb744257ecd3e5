//! Captures written by hand: a configuration, then events in the order they are said.

use chips::uc8253::Uc8253Config;

use crate::capture::{
    self, COLUMNS_REVERSED, Capture, Configuration, Event, POSITIVE_DRIVES_BLACK, ROWS_REVERSED,
};

/// The configuration of document 01's example: a frame of the default VDH or VDL is half a swing.
pub fn example_panel() -> Configuration {
    Configuration {
        variant: 0,
        flags: POSITIVE_DRIVES_BLACK,
        sources: 8,
        gates: 1,
        initial_grey: 0,
        ambient: 0,
        full_swing: 28_000_000,
        power_on: 100,
        power_off: 0,
        deep_sleep: 0,
        soft_reset: 0,
        hardware_reset: 0,
        periods: [1_000; 32],
        rate: None,
    }
}

/// The X3 of the first batch, as inkemu configures it.
pub fn x3_panel() -> Configuration {
    let of = Uc8253Config::xteink_x3();
    let flag = |is: bool, bit: u8| if is { bit } else { 0 };
    Configuration {
        variant: 0,
        flags: flag(of.panel.rows_reversed, ROWS_REVERSED)
            | flag(of.panel.columns_reversed, COLUMNS_REVERSED)
            | flag(of.optics.positive_drives_black, POSITIVE_DRIVES_BLACK),
        sources: of.panel.sources,
        gates: of.panel.gates,
        initial_grey: of.optics.initial_gray,
        ambient: of.ambient_celsius.to_le_bytes()[0],
        full_swing: of.optics.full_swing,
        power_on: of.timing.power_on,
        power_off: of.timing.power_off,
        deep_sleep: of.timing.deep_sleep,
        soft_reset: of.timing.soft_reset,
        hardware_reset: of.timing.hardware_reset,
        periods: of.timing.frame_period,
        rate: None,
    }
}

pub struct Script {
    capture: Capture,
    time: u64,
}

impl Script {
    pub fn new(configuration: Configuration) -> Script {
        let events = Vec::new();
        Script {
            capture: Capture {
                configuration,
                events,
            },
            time: 0,
        }
    }

    /// The events that follow come at `time`.
    pub fn at(mut self, time: u64) -> Script {
        self.time = time;
        self
    }

    pub fn event(mut self, kind: u8, value: u8) -> Script {
        let time = self.time;
        self.capture.events.push(Event { time, kind, value });
        self
    }

    /// The events of another script.
    pub fn events(mut self, of: &Script) -> Script {
        self.capture.events.extend(&of.capture.events);
        self
    }

    pub fn data(self, bytes: &[u8]) -> Script {
        bytes
            .iter()
            .fold(self, |script, &byte| script.event(capture::DATA, byte))
    }

    pub fn command(self, command: u8, data: &[u8]) -> Script {
        self.event(capture::COMMAND, command).data(data)
    }

    pub fn reads(self, count: usize) -> Script {
        (0..count).fold(self, |script, _| script.event(capture::READ, 0))
    }

    pub fn assert_reset(self) -> Script {
        self.event(capture::RESET, 1)
    }

    pub fn release_reset(self) -> Script {
        self.event(capture::RESET, 0)
    }

    /// VCOM by the rule of this number.
    pub fn rule(self, number: u8) -> Script {
        self.event(capture::VCOM_RULE, number)
    }

    pub fn advance(self) -> Script {
        self.event(capture::ADVANCE, 0)
    }

    /// KW mode with the tables from the registers, then the supplies: up at 100, where it leaves
    /// the clock of a panel whose `power_on` is 100.
    pub fn power_up(self) -> Script {
        self.at(0).command(0x00, &[0x3F]).command(0x04, &[]).at(100)
    }

    pub fn capture(&self) -> &Capture {
        &self.capture
    }

    pub fn file(&self) -> Vec<u8> {
        self.capture.encode()
    }
}
