//! The capture file of document 01, with the rate of 2026-05 and VCOM's rule of 2026-08: its layout,
//! and refusals 8 and 9.

use chips::glass::{Optics, Provenance};
use chips::uc8253::{FRAME_RATE_CODES, Uc8253Config, Uc8253Geometry, Uc8253Timing, Variant};

use crate::clock::{Clock, GIGAHERTZ};
use crate::refusal::Refusal;
use crate::vcom::Rule;

pub const EVENT_BYTES: usize = 10;
pub const CONFIGURATION_BYTES: usize = 312;
pub const TRAILER_BYTES: usize = 8;
/// What follows the events: the configuration and the trailer that points back to it.
pub const TAIL_BYTES: usize = CONFIGURATION_BYTES + TRAILER_BYTES;
/// The rate, with which a configuration may end.
pub const RATE_BYTES: usize = 8;
/// The tail of a file whose configuration ends with a rate.
pub const RATED_TAIL_BYTES: usize = TAIL_BYTES + RATE_BYTES;
pub const MOST_BYTES: usize = 65_536;
pub const MOST_EVENTS: usize = (MOST_BYTES - TAIL_BYTES) / EVENT_BYTES;
pub const MOST_RATED_EVENTS: usize = (MOST_BYTES - RATED_TAIL_BYTES) / EVENT_BYTES;

/// The kinds of event.
pub const COMMAND: u8 = 1;
pub const DATA: u8 = 2;
pub const READ: u8 = 3;
pub const RESET: u8 = 4;
pub const ADVANCE: u8 = 5;
/// Its value is the rule's number.
pub const VCOM_RULE: u8 = 6;

pub const ROWS_REVERSED: u8 = 1 << 0;
pub const COLUMNS_REVERSED: u8 = 1 << 1;
pub const POSITIVE_DRIVES_BLACK: u8 = 1 << 2;
/// Rule 2 from making on.
pub const VCOM_BY_FRAME: u8 = 1 << 3;
pub const LISTED_FLAGS: u8 =
    ROWS_REVERSED | COLUMNS_REVERSED | POSITIVE_DRIVES_BLACK | VCOM_BY_FRAME;

const VARIANTS: [Variant; 2] = [Variant::Uc8253, Variant::Uc8279d];

/// Where the periods begin in the configuration.
const PERIODS_AT: usize = 56;

fn number(bytes: &[u8], at: usize) -> u64 {
    let mut word = [0; 8];
    word.copy_from_slice(&bytes[at..at + 8]);
    u64::from_le_bytes(word)
}

fn half(bytes: &[u8], at: usize) -> u16 {
    u16::from_le_bytes([bytes[at], bytes[at + 1]])
}

#[derive(Clone, Copy, Debug, PartialEq, Eq)]
pub struct Event {
    pub time: u64,
    pub kind: u8,
    pub value: u8,
}

impl Event {
    pub fn decode(bytes: &[u8]) -> Event {
        Event {
            time: number(bytes, 0),
            kind: bytes[8],
            value: bytes[9],
        }
    }

    pub fn encode(self, file: &mut Vec<u8>) {
        file.extend(self.time.to_le_bytes());
        file.extend([self.kind, self.value]);
    }

    /// Whether the papers list the kind, and the value for it.
    pub fn is_listed(self) -> bool {
        match self.kind {
            COMMAND | DATA => true,
            RESET => self.value <= 1,
            READ | ADVANCE => self.value == 0,
            VCOM_RULE => [1, 2].contains(&self.value),
            _ => false,
        }
    }
}

/// The configuration as the file holds it, whatever its values.
#[derive(Clone, Debug, PartialEq, Eq)]
pub struct Configuration {
    pub variant: u8,
    pub flags: u8,
    pub sources: u16,
    pub gates: u16,
    pub initial_grey: u8,
    pub ambient: u8,
    pub full_swing: u64,
    pub power_on: u64,
    pub power_off: u64,
    pub deep_sleep: u64,
    pub soft_reset: u64,
    pub hardware_reset: u64,
    pub periods: [u64; FRAME_RATE_CODES],
    /// The board's rate in Hz, where the configuration ends with one.
    pub rate: Option<u64>,
}

impl Configuration {
    /// A configuration that ends with its rate.
    pub fn decode_rated(bytes: &[u8]) -> Configuration {
        Configuration {
            rate: Some(number(bytes, CONFIGURATION_BYTES)),
            ..Configuration::decode(bytes)
        }
    }

    /// A configuration without a rate.
    pub fn decode(bytes: &[u8]) -> Configuration {
        Configuration {
            variant: bytes[0],
            flags: bytes[1],
            sources: half(bytes, 2),
            gates: half(bytes, 4),
            initial_grey: bytes[6],
            ambient: bytes[7],
            full_swing: number(bytes, 8),
            power_on: number(bytes, 16),
            power_off: number(bytes, 24),
            deep_sleep: number(bytes, 32),
            soft_reset: number(bytes, 40),
            hardware_reset: number(bytes, 48),
            periods: std::array::from_fn(|code| number(bytes, PERIODS_AT + 8 * code)),
            rate: None,
        }
    }

    fn encode(&self, file: &mut Vec<u8>) {
        file.extend([self.variant, self.flags]);
        file.extend(self.sources.to_le_bytes());
        file.extend(self.gates.to_le_bytes());
        file.extend([self.initial_grey, self.ambient]);
        for time in [
            self.full_swing,
            self.power_on,
            self.power_off,
            self.deep_sleep,
            self.soft_reset,
            self.hardware_reset,
        ] {
            file.extend(time.to_le_bytes());
        }
        for period in self.periods {
            file.extend(period.to_le_bytes());
        }
        file.extend(self.rate.iter().flat_map(|rate| rate.to_le_bytes()));
    }

    /// Its bytes and those of the trailer.
    pub fn tail_bytes(&self) -> usize {
        match self.rate {
            None => TAIL_BYTES,
            Some(_) => RATED_TAIL_BYTES,
        }
    }

    pub fn most_events(&self) -> usize {
        match self.rate {
            None => MOST_EVENTS,
            Some(_) => MOST_RATED_EVENTS,
        }
    }

    /// The rate in Hz; without one it is 1 GHz.
    pub fn hertz(&self) -> u64 {
        self.rate.unwrap_or(GIGAHERTZ)
    }

    /// The board's clock, or refusal 13.
    pub fn clock(&self) -> Result<Clock, Refusal> {
        Clock::of(self.hertz()).ok_or(Refusal::Rate)
    }

    pub fn flag(&self, bit: u8) -> bool {
        self.flags & bit != 0
    }

    /// VCOM's rule at making.
    pub fn rule(&self) -> Rule {
        Rule::of(self.flag(VCOM_BY_FRAME))
    }

    pub fn is_listed(&self) -> bool {
        usize::from(self.variant) < VARIANTS.len() && self.flags & !LISTED_FLAGS == 0
    }

    pub fn pixels(&self) -> u64 {
        u64::from(self.sources) * u64::from(self.gates)
    }

    /// The configuration as the published Rust takes it; the variant is one of the two.
    pub fn chip(&self) -> Uc8253Config {
        Uc8253Config {
            variant: VARIANTS[usize::from(self.variant)],
            panel: Uc8253Geometry {
                sources: self.sources,
                gates: self.gates,
                rows_reversed: self.flag(ROWS_REVERSED),
                columns_reversed: self.flag(COLUMNS_REVERSED),
            },
            optics: Optics {
                provenance: Provenance::Approximation,
                full_swing: self.full_swing,
                positive_drives_black: self.flag(POSITIVE_DRIVES_BLACK),
                initial_gray: self.initial_grey,
            },
            timing: Uc8253Timing {
                provenance: Provenance::Approximation,
                power_on: self.power_on,
                power_off: self.power_off,
                deep_sleep: self.deep_sleep,
                soft_reset: self.soft_reset,
                hardware_reset: self.hardware_reset,
                frame_period: self.periods,
            },
            ambient_celsius: i8::from_le_bytes([self.ambient]),
        }
    }
}

/// The file's last eight bytes.
#[derive(Clone, Copy, Debug, PartialEq, Eq)]
pub struct Trailer {
    pub offset: u32,
    pub count: u32,
}

impl Trailer {
    pub fn decode(bytes: &[u8]) -> Trailer {
        let word = |at: usize| u32::from_le_bytes([0, 1, 2, 3].map(|byte| bytes[at + byte]));
        Trailer {
            offset: word(0),
            count: word(4),
        }
    }

    /// Whether `tail` bytes lie from its offset to the end of a file of `length` bytes.
    fn leaves(self, length: usize, tail: usize) -> bool {
        length as u64 == u64::from(self.offset) + tail as u64
    }

    /// Whether a file of `length` bytes ends as this trailer says; the products are exact.
    pub fn fits(self, length: usize) -> bool {
        u64::from(self.offset) == EVENT_BYTES as u64 * u64::from(self.count)
            && [TAIL_BYTES, RATED_TAIL_BYTES]
                .iter()
                .any(|&tail| self.leaves(length, tail))
    }
}

#[derive(Clone, Debug, PartialEq, Eq)]
pub struct Capture {
    pub configuration: Configuration,
    pub events: Vec<Event>,
}

impl Capture {
    pub fn encode(&self) -> Vec<u8> {
        let tail = self.configuration.tail_bytes();
        let mut file = Vec::with_capacity(EVENT_BYTES * self.events.len() + tail);
        for event in &self.events {
            event.encode(&mut file);
        }
        let offset = file.len();
        self.configuration.encode(&mut file);
        for word in [offset, self.events.len()] {
            let word = u32::try_from(word).expect("a capture is far below 4 GiB");
            file.extend(word.to_le_bytes());
        }
        file
    }

    /// Whether a file that has room for a rate has one: by its trailer, or, where that is wrong, by
    /// what whole events leave over.
    fn is_rated(file: &[u8]) -> bool {
        let Some(most) = file.len().checked_sub(RATED_TAIL_BYTES) else {
            return false;
        };
        let trailer = Trailer::decode(&file[file.len() - TRAILER_BYTES..]);
        if trailer.leaves(file.len(), TAIL_BYTES) {
            return false;
        }
        trailer.leaves(file.len(), RATED_TAIL_BYTES) || most % EVENT_BYTES == 0
    }

    /// The events and the configuration where a whole file has them; bytes left over before the
    /// configuration are passed over. None if there is no room for a configuration.
    pub fn salvage(file: &[u8]) -> Option<Capture> {
        let (tail, decode): (_, fn(&[u8]) -> Configuration) = if Capture::is_rated(file) {
            (RATED_TAIL_BYTES, Configuration::decode_rated)
        } else {
            (TAIL_BYTES, Configuration::decode)
        };
        let events = &file[..file.len().checked_sub(tail)?];
        Some(Capture {
            configuration: decode(&file[events.len()..]),
            events: events
                .chunks_exact(EVENT_BYTES)
                .map(Event::decode)
                .collect(),
        })
    }

    /// Refusal 8's test.
    pub fn is_whole(file: &[u8]) -> bool {
        (TAIL_BYTES..=MOST_BYTES).contains(&file.len())
            && Trailer::decode(&file[file.len() - TRAILER_BYTES..]).fits(file.len())
    }

    /// Refusal 9's test.
    pub fn is_listed(&self) -> bool {
        self.configuration.is_listed() && self.events.iter().all(|event| event.is_listed())
    }

    /// The capture of a file, or refusal 8 or 9.
    pub fn read(file: &[u8]) -> Result<Capture, Refusal> {
        if !Capture::is_whole(file) {
            return Err(Refusal::BrokenCapture);
        }
        let capture = Capture::salvage(file).ok_or(Refusal::BrokenCapture)?;
        if !capture.is_listed() {
            return Err(Refusal::BadEvent);
        }
        Ok(capture)
    }
}
