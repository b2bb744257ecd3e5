//! What happens on the bus, and what a capture holds.

use crate::configuration::{self, Configuration};
use crate::refused::Refused;

/// The bytes of an event.
pub const EVENT_BYTES: usize = 10;
const TRAILER_BYTES: usize = 8;

/// The kinds of an event, as its ninth byte has them.
const COMMAND: u8 = 1;
const DATA: u8 = 2;
const READ: u8 = 3;
const RESET: u8 = 4;
const ADVANCE: u8 = 5;
const VCOM_RULE: u8 = 6;

/// The values of that kind: the rules' numbers.
const BY_PHASE: u8 = 1;
const BY_FRAME: u8 = 2;

/// What a read's answer is beside a byte, as [`Panel::run_bytes`](crate::Panel::run_bytes) has it.
const NOTHING: u16 = 256;
pub(crate) const NO_READ: u16 = 257;

/// What happens.
#[derive(Clone, Copy, Debug, PartialEq, Eq, Hash)]
pub enum What {
    /// A command byte (D/C# low).
    Command(u8),
    /// A data byte (D/C# high).
    Data(u8),
    /// The host reads a byte.
    Read,
    /// `RST_N` falls (true: asserted) or rises.
    Reset(bool),
    /// Nothing; time passes.
    Advance,
    /// VCOM goes by frame (true: rule 2) or by phase (rule 1) from the next refresh on.
    VcomByFrame(bool),
}

/// Something that happens at a time, in cycles of the configuration's clock: nanoseconds at 1 GHz.
#[derive(Clone, Copy, Debug, PartialEq, Eq, Hash)]
pub struct Event {
    /// The time. One before the clock happens at the clock.
    pub at: u64,
    /// What happens.
    pub what: What,
}

impl Event {
    /// The event of a capture's three numbers; refused by 9 where they are not listed.
    pub fn listed(at: u64, kind: u8, value: u8) -> Result<Event, Refused> {
        let what = match (kind, value) {
            (COMMAND, byte) => What::Command(byte),
            (DATA, byte) => What::Data(byte),
            (READ, 0) => What::Read,
            (RESET, 0 | 1) => What::Reset(value == 1),
            (ADVANCE, 0) => What::Advance,
            (VCOM_RULE, BY_PHASE | BY_FRAME) => What::VcomByFrame(value == BY_FRAME),
            _ => return Err(Refused::BAD_EVENT),
        };
        Ok(Event { at, what })
    }

    /// Its ten bytes: time, the lowest byte first, kind and value.
    #[must_use]
    pub fn bytes(self) -> [u8; EVENT_BYTES] {
        let (kind, value) = match self.what {
            What::Command(byte) => (COMMAND, byte),
            What::Data(byte) => (DATA, byte),
            What::Read => (READ, 0),
            What::Reset(asserted) => (RESET, u8::from(asserted)),
            What::Advance => (ADVANCE, 0),
            What::VcomByFrame(false) => (VCOM_RULE, BY_PHASE),
            What::VcomByFrame(true) => (VCOM_RULE, BY_FRAME),
        };
        let [a, b, c, d, e, f, g, h] = self.at.to_le_bytes();
        [a, b, c, d, e, f, g, h, kind, value]
    }
}

/// What an event answers.
#[derive(Clone, Copy, Debug, PartialEq, Eq, Hash)]
pub enum Answer {
    /// It is no read.
    NoRead,
    /// A read to which the controller drives nothing.
    Nothing,
    /// The byte of a read.
    Byte(u8),
}

impl Answer {
    /// The byte, 256 for nothing, 257 for no read.
    #[must_use]
    pub fn number(self) -> u16 {
        match self {
            Answer::NoRead => NO_READ,
            Answer::Nothing => NOTHING,
            Answer::Byte(byte) => u16::from(byte),
        }
    }

    pub(crate) fn of(number: u16) -> Answer {
        match u8::try_from(number) {
            Ok(byte) => Answer::Byte(byte),
            Err(_) if number == NOTHING => Answer::Nothing,
            Err(_) => Answer::NoRead,
        }
    }
}

/// A capture file (docs/FORMAT.md) of a configuration and events. Its trailer counts up to 4 GiB.
#[must_use]
pub fn write_capture(configuration: &Configuration, events: &[Event]) -> Vec<u8> {
    let mut file: Vec<u8> = events.iter().flat_map(|event| event.bytes()).collect();
    let offset = file.len();
    configuration.encode(&mut file);
    for number in [offset, events.len()] {
        file.extend(u32::try_from(number).unwrap_or(u32::MAX).to_le_bytes());
    }
    file
}

/// The configuration and the events of a capture file; refused by 8 where it is broken, by 9 where
/// something in it is not listed. Unlike the program, this takes files of any length.
pub fn read_capture(file: &[u8]) -> Result<(Configuration, Vec<Event>), Refused> {
    let broken = Refused::BROKEN_CAPTURE;
    let (rest, trailer) = file.split_last_chunk::<TRAILER_BYTES>().ok_or(broken)?;
    let [a, b, c, d, e, f, g, h] = *trailer;
    let offset = u64::from(u32::from_le_bytes([a, b, c, d]));
    let count = u64::from(u32::from_le_bytes([e, f, g, h]));
    if offset != EVENT_BYTES as u64 * count || offset > rest.len() as u64 {
        return Err(broken);
    }
    let (events, tail) = rest.split_at(EVENT_BYTES * count as usize);
    let (bytes, rate) = tail
        .split_first_chunk::<{ configuration::BYTES }>()
        .ok_or(broken)?;
    let rate = match *rate {
        [] => configuration::GIGAHERTZ,
        _ => u64::from_le_bytes(rate.try_into().map_err(|_| broken)?),
    };
    let configuration = Configuration::decode(bytes, rate)?;
    let events = events.chunks_exact(EVENT_BYTES).map(|event| {
        let at = std::array::from_fn(|byte| event[byte]);
        Event::listed(u64::from_le_bytes(at), event[8], event[9])
    });
    Ok((configuration, events.collect::<Result<_, _>>()?))
}
