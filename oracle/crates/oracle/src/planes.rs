//! Digests of the two RAM planes, read bit by bit through `ram_bit`.

use chips::uc8253::{Plane, RAM_GATES, RAM_SOURCES};

use crate::capture::{self, Event};
use crate::chip::Chip;

const FNV_OFFSET: u64 = 0xCBF2_9CE4_8422_2325;
const FNV_PRIME: u64 = 0x0000_0100_0000_01B3;
const ROW_BYTES: u16 = RAM_SOURCES / 8;

/// Columns 8 `byte` to 8 `byte` + 7 of a row, highest bit first.
fn packed(chip: &Chip, plane: Plane, byte: u16, row: u16) -> u64 {
    (0..8).fold(0, |bits, bit| {
        bits << 1 | u64::from(chip.ram_bit(plane, 8 * byte + bit, row) == Some(true))
    })
}

/// FNV-1a, 64 bits, over the plane packed eight columns a byte, highest first, row by row; the
/// rows from `reach` on are known to be zero.
pub fn digest(chip: &Chip, plane: Plane, reach: u16) -> u64 {
    let mut hash = FNV_OFFSET;
    for row in 0..reach {
        for byte in 0..ROW_BYTES {
            hash = (hash ^ packed(chip, plane, byte, row)).wrapping_mul(FNV_PRIME);
        }
    }
    let zeros = u32::from(RAM_GATES - reach) * u32::from(ROW_BYTES);
    hash.wrapping_mul(FNV_PRIME.wrapping_pow(zeros))
}

/// The largest bytes sent for a first row by 65 and 90, whether or not the chip took them.
#[derive(Default)]
struct FirstRow {
    high: u16,
    low: u16,
}

impl FirstRow {
    fn follow(&mut self, command: u8, index: u16, byte: u8) {
        match (command, index) {
            (0x65, 2) | (0x90, 4) => self.high = self.high.max(u16::from(byte & 3)),
            (0x65, 3) | (0x90, 5) => self.low = self.low.max(u16::from(byte)),
            _ => {}
        }
    }

    /// No first row lies below this one. 90 holds a row above 599 there, whose low byte is 57.
    fn most(&self) -> u16 {
        let held = if self.high >= 2 { 0x57 } else { 0 };
        (self.high << 8) + self.low.max(held)
    }
}

/// The digests of both planes, each taken anew only after an event that can change it: a data
/// byte whose command byte was 10 (OLD) or 13 (NEW), whether or not the chip took it, and for OLD
/// any event at which an operation ends, since that may be a refresh that copies NEW to OLD.
///
/// `reach` bounds the rows that can hold a bit: a stream begins at a first row and each byte moves
/// it down by one row at most.
pub struct Planes {
    pub old: u64,
    pub new: u64,
    reach: [u16; 2],
    first_row: FirstRow,
    command: u8,
    received: u16,
    clock: u64,
    deadline: Option<u64>,
}

impl Planes {
    pub fn at_making(chip: &Chip) -> Planes {
        Planes {
            old: digest(chip, Plane::Old, RAM_GATES),
            new: digest(chip, Plane::New, RAM_GATES),
            reach: [0; 2],
            first_row: FirstRow::default(),
            command: 0,
            received: 0,
            clock: 0,
            deadline: None,
        }
    }

    /// Follows `chip` over `event`, which it has met.
    pub fn follow(&mut self, event: Event, chip: &Chip) {
        self.clock = self.clock.max(event.time);
        let ended = self.deadline.is_some_and(|end| end <= self.clock);
        self.deadline = chip.next_deadline().map(|end| end.get());
        if ended {
            self.reach[0] = self.reach[0].max(self.reach[1]);
            self.old = digest(chip, Plane::Old, self.reach[0]);
        }
        match event.kind {
            capture::COMMAND => (self.command, self.received) = (event.value, 0),
            capture::DATA => self.data(event.value, chip),
            _ => {}
        }
    }

    fn data(&mut self, byte: u8, chip: &Chip) {
        self.first_row.follow(self.command, self.received, byte);
        self.received = self.received.saturating_add(1);
        let reach = self
            .first_row
            .most()
            .saturating_add(self.received)
            .min(RAM_GATES);
        if self.command == 0x10 {
            self.reach[0] = self.reach[0].max(reach);
            self.old = digest(chip, Plane::Old, self.reach[0]);
        } else if self.command == 0x13 {
            self.reach[1] = self.reach[1].max(reach);
            self.new = digest(chip, Plane::New, self.reach[1]);
        }
    }
}
