//! The rows that must be stored: the Rust's, less the second row of a fault (2026-02).
//!
//! The Rust is asked for its rows after every event, so its own list stays short, and what is left
//! out takes no room of a later row.

use std::mem;

use crate::chip::Chip;
use crate::rows;

pub type Row = [u64; 5];

/// The rows that are kept.
pub const MOST_ROWS: usize = 1_024;

const LUT_LENGTH: u64 = 13;
/// The most data bytes of a table; the one after them is kind 4.
const MOST_TABLE_BYTES: u64 = 60;

/// Kind 13 of a table load whose extra byte gave kind 4.
pub fn is_second(row: &Row) -> bool {
    row[1] == LUT_LENGTH && row[3] > MOST_TABLE_BYTES
}

#[derive(Debug, Default, PartialEq, Eq)]
pub struct Log {
    pub stored: Vec<Row>,
    pub dropped: u64,
    /// The Rust's rows that are left out.
    pub left_out: u64,
}

impl Log {
    pub fn add(&mut self, row: Row) {
        if is_second(&row) {
            self.left_out += 1;
        } else if self.stored.len() < MOST_ROWS {
            self.stored.push(row);
        } else {
            self.dropped += 1;
        }
    }

    /// What the chip has reported since its rows were taken last.
    pub fn add_from(&mut self, chip: &mut Chip) {
        for diagnostic in chip.take_diagnostics() {
            self.add(rows::numbers(&diagnostic));
        }
    }

    /// The rows are taken; the dropped count stays.
    pub fn take(&mut self) -> Vec<Row> {
        mem::take(&mut self.stored)
    }
}
