//! What a refresh covers: its settings at the start, and where it ended or was cut.

use crate::capture::{self, Configuration};
use crate::clock::Clock;
use crate::registers::Registers;
use crate::tally::{Cut, Facts};

/// The largest start or resolution that 61 and 65 can hold.
const MOST_COLUMN: u16 = 1_016;
const MOST_ROW: u16 = 1_023;
const LONG: u64 = 255 * 255;
/// Frames that follow the longest table.
const TAIL_FRAMES: u64 = 2;

pub struct Running {
    board: Clock,
    start: u64,
    end: u64,
    period: u64,
    frames: u64,
}

impl Running {
    pub fn new(of: &Configuration, registers: &Registers, start: u64, end: u64) -> Running {
        let code = usize::from(registers.byte(0x30, 0) & 0x1F);
        let running = Running {
            board: of.clock().expect("the capture is accepted"),
            start,
            end,
            period: of.periods[code],
            frames: registers.longest_frames(),
        };
        let duration = running.board.cycles(running.duration());
        assert_eq!(end, start.saturating_add(duration), "the Rust's deadline");
        running
    }

    /// In nanoseconds, held.
    fn duration(&self) -> u64 {
        (self.frames + TAIL_FRAMES).saturating_mul(self.period)
    }

    fn is_held(&self) -> bool {
        let duration = (self.frames + TAIL_FRAMES).checked_mul(self.period);
        let cycles = duration.map(|ns| self.board.cycles(ns));
        cycles.and_then(|cycles| self.start.checked_add(cycles)) != Some(self.end)
    }

    pub fn started(&self, facts: &mut Facts, of: &Configuration, registers: &Registers) {
        facts.note_if(self.is_held(), "refresh's end held at 2^64 - 1");
        let cycles = self.board.cycles(self.duration());
        facts.note_if(cycles == 1, "refresh of one cycle");
        let exact = self.board.nanos(cycles) == self.duration();
        facts.note_if(!exact, "refresh that lasts no whole number of cycles");
        let within = self.whole(1) > 0 && cycles > 1;
        facts.note_if(
            within,
            "refresh with a frame or more to a cycle, of several cycles",
        );
        facts.note_if(self.period == 1, "refresh with period 1");
        facts.note_if(self.period == u64::MAX, "refresh with period 2^64 - 1");
        facts.note_if(of.full_swing == 1, "refresh with swing 1");
        facts.note_if(
            of.full_swing == i64::MAX as u64,
            "refresh with swing 2^63 - 1",
        );
        facts.note_if(self.frames >= LONG, "refresh of 65,025 frames or more");
        facts.value(
            "frame-rate codes of refreshes",
            registers.byte(0x30, 0) & 0x1F,
        );
        let length = u64::from(u64::BITS - self.period.leading_zeros());
        facts.value("binary lengths of a refresh's period", length);
        directions(facts, of, registers);
        areas(facts, of, registers);
        interval(facts, of, registers);
        tables(facts, registers);
    }

    /// The refresh ended at `at`, by itself or `interrupted`; `clock` is the chip's.
    pub fn ended(&self, facts: &mut Facts, interrupted: bool, at: u64, clock: u64) {
        if !interrupted {
            facts.ended += 1;
            return;
        }
        let elapsed = at - self.start;
        let frames = self.whole(elapsed);
        let inner = frames > 0 && frames < self.frames;
        facts.inner += u64::from(inner);
        facts.cuts.push(Cut {
            at,
            frames,
            of: self.frames + TAIL_FRAMES,
        });
        facts.note_if(elapsed == 0, "cut in the cycle of the start");
        facts.note_if(clock + 1 == self.end, "cut 1 cycle before the end");
        facts.note_if(inner, "cut after a frame was driven and before the last");
        if let Some(item) = self.place(elapsed) {
            facts.note(item);
        }
    }

    /// The whole frames after so many cycles.
    fn whole(&self, cycles: u64) -> u64 {
        self.board.nanos(cycles) / self.period
    }

    /// Where in a frame a cut after so many cycles lies.
    fn place(&self, elapsed: u64) -> Option<&'static str> {
        let frames = self.whole(elapsed);
        let boundary = self.board.cycles(frames * self.period);
        // In frames of fewer cycles the three do not differ.
        if elapsed == 0 || self.whole(boundary.saturating_add(2)) > frames {
            return None;
        }
        Some(match elapsed - boundary {
            0 => "cut on a frame boundary",
            1 => "cut 1 cycle after a frame boundary",
            _ if self.whole(elapsed.saturating_add(1)) > frames => {
                "cut 1 cycle before a frame boundary"
            }
            _ => "cut elsewhere in a frame",
        })
    }
}

fn directions(facts: &mut Facts, of: &Configuration, registers: &Registers) {
    let mode = registers.byte(0x00, 0);
    facts.note_if(mode & 4 == 0, "refresh with columns mirrored (00 bit 2)");
    facts.note_if(mode & 8 == 0, "refresh with rows mirrored (00 bit 3)");
    let columns = of.flag(capture::COLUMNS_REVERSED);
    facts.note_if(columns, "refresh with columns reversed (flags)");
    let rows = of.flag(capture::ROWS_REVERSED);
    facts.note_if(rows, "refresh with rows reversed (flags)");
    facts.note(match of.flag(capture::POSITIVE_DRIVES_BLACK) {
        true => "refresh with positive driving black",
        false => "refresh with positive driving white",
    });
}

fn areas(facts: &mut Facts, of: &Configuration, registers: &Registers) {
    let (width, height) = (registers.column(0x61, 0), registers.ten_bits(0x61, 2));
    let (column, row) = (registers.column(0x65, 0), registers.ten_bits(0x65, 2));
    facts.note_if(column == MOST_COLUMN, "refresh with start column 1,016");
    facts.note_if(row == MOST_ROW, "refresh with start row 1,023");
    let largest = (width, height) == (MOST_COLUMN, MOST_ROW);
    facts.note_if(largest, "refresh with resolution 1,016 by 1,023");
    facts.note_if(width == 0, "refresh with width 0");
    facts.note_if(height == 0, "refresh with height 0");
    let [no_columns, no_rows] = registers.empty_window();
    facts.note_if(no_columns, "refresh with a window empty in columns");
    facts.note_if(no_rows, "refresh with a window empty in rows");
    if registers.partial && !no_columns && !no_rows {
        let past = registers.ten_bits(0x90, 2) >= of.sources.next_multiple_of(8)
            || registers.ten_bits(0x90, 6) >= of.gates;
        facts.note(match past {
            true => "refresh with a window past the panel",
            false => "refresh with a window within the panel",
        });
    }
}

fn interval(facts: &mut Facts, of: &Configuration, registers: &Registers) {
    if of.variant == 0 {
        facts.note(match registers.copies_new_to_old() {
            true => "refresh with N2OCP on",
            false => "refresh with N2OCP off",
        });
    }
    facts.note(match registers.one_is_white() {
        true => "refresh with DDX on",
        false => "refresh with DDX off",
    });
}

fn tables(facts: &mut Facts, registers: &Registers) {
    for (holds, item) in [
        (registers.vcom_floats(), "refresh with VCOM floating"),
        (registers.vcom_drives(), "refresh with VCOM driven"),
        (
            registers.vcom_is_shorter(),
            "refresh with fewer VCOM groups",
        ),
        (
            registers.vcom_counts_differ(),
            "refresh with other VCOM counts",
        ),
        (
            registers.ends_by_repeats(),
            "refresh with a table ended by repeats 0",
        ),
        (
            registers.ends_by_counts(),
            "refresh with a table ended by counts 0",
        ),
        (
            registers.all_tables_empty(),
            "refresh with all tables empty",
        ),
    ] {
        facts.note_if(holds, item);
    }
}
