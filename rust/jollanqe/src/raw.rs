//! What crosses to the library, as include/jollanqe.h has it: the record, and the calls as they are.
//!
//! [`Panel`](crate::Panel) is made of these and cannot misuse them. They are open for a host that
//! keeps its buffers elsewhere, and for looking at a record's fields. A slice passes as a pointer
//! and a length. `tools/boundary` holds this file to the library's own text.

use std::mem::{offset_of, size_of};

/// A rectangle of RAM in pixels, its ends included.
#[derive(Clone, Copy, Debug, PartialEq, Eq)]
#[repr(C)]
pub struct Area {
    /// First column.
    pub x0: u16,
    /// First row.
    pub y0: u16,
    /// Last column.
    pub x1: u16,
    /// Last row.
    pub y1: u16,
}

/// Horizontal and vertical.
#[derive(Clone, Copy, Debug, PartialEq, Eq)]
#[repr(C)]
pub struct Pair {
    /// Columns.
    pub h: u16,
    /// Rows.
    pub v: u16,
}

/// Where the next pixel byte goes.
#[derive(Clone, Copy, Debug, PartialEq, Eq)]
#[repr(C)]
pub struct Cursor {
    /// Column of its highest bit.
    pub x: u16,
    /// Row; one past the area's last when it is full.
    pub y: u16,
}

/// How the glass's pixels sit on the controller's lines.
#[derive(Clone, Copy, Debug, PartialEq, Eq)]
#[repr(C)]
pub struct Geometry {
    /// The width of the panel, 1 to 800.
    pub sources: u16,
    /// Its height, 1 to 600.
    pub gates: u16,
    /// The top row is the last gate.
    pub rows_reversed: bool,
    /// The left column is the last source.
    pub columns_reversed: bool,
}

/// How the glass answers the waveform.
#[derive(Clone, Copy, Debug, PartialEq, Eq)]
#[repr(C)]
pub struct Optics {
    /// The drive from black to white, millivolts × nanoseconds.
    pub full_swing: u64,
    /// Source above VCOM darkens.
    pub positive_drives_black: bool,
    /// Every pixel at making, 0 black to 255 white.
    pub initial_gray: u8,
}

/// How long each operation keeps `BUSY_N` low, in nanoseconds; and the clock in whose cycles every
/// other time is.
#[derive(Clone, Copy, Debug, PartialEq, Eq)]
#[repr(C)]
pub struct Timing {
    /// 04, PON.
    pub power_on: u64,
    /// 02, POF.
    pub power_off: u64,
    /// 07 A5, DSLP.
    pub deep_sleep: u64,
    /// First byte of 00 with bit 0 clear.
    pub soft_reset: u64,
    /// From the moment `RST_N` rises.
    pub hardware_reset: u64,
    /// By the code of 30, PLL; none of them 0.
    pub frame_period: [u64; 32],
    /// Of the board's clock in Hz, 1 to 1,000,000,000.
    pub rate: u64,
}

/// The registers, but for the tables.
#[derive(Clone, Copy, Debug, PartialEq, Eq)]
#[repr(C)]
pub struct Registers {
    /// 00, PSR.
    pub psr: [u8; 2],
    /// 01, PWR.
    pub power: [u8; 5],
    /// 30, PLL.
    pub pll: u8,
    /// 50, CDI.
    pub cdi: [u8; 2],
    /// 61, TRES: width and height of the area.
    pub resolution: Pair,
    /// 65, GSST: its first column and row.
    pub start: Pair,
    /// 90, PTL: the partial window.
    pub window: Area,
    /// 91 came after the last 92.
    pub partial: bool,
}

/// The tables' bytes as they were loaded.
#[derive(Clone, Copy, Debug, PartialEq, Eq)]
#[repr(C)]
pub struct Luts {
    /// 20 VCOM, 21 white to white, 22 black to white, 23 white to black, 24 black to black.
    pub bytes: [[u8; 42]; 5],
}

/// One group of a table: four phases, run as often as it says.
#[derive(Clone, Copy, Debug, PartialEq, Eq)]
#[repr(C)]
pub struct Group {
    /// The level of each phase, 0 to 3.
    pub codes: [u8; 4],
    /// How many frames each lasts.
    pub frames: [u8; 4],
    /// How often the four run; 0 ends the table.
    pub repeats: u8,
}

/// Supply levels in millivolts.
#[derive(Clone, Copy, Debug, PartialEq, Eq)]
#[repr(C)]
pub struct Levels {
    /// Code 1.
    pub vdh: u16,
    /// Code 2: how far it lies below zero.
    pub vdl: u16,
    /// Code 3 of a source.
    pub vdhr: u16,
}

/// What the refresh that was started last drives with.
#[derive(Clone, Copy, Debug, PartialEq, Eq)]
#[repr(C)]
pub struct Waveform {
    /// By the table's number, 0 VCOM; seven groups each.
    pub tables: [[Group; 7]; 5],
    /// The supplies.
    pub levels: Levels,
    /// The frame period in nanoseconds.
    pub frame_ns: u64,
    /// The rule that the refresh was started by: 2, else 1.
    pub vcom_by_frame: bool,
}

/// How many rows of diagnostics there are.
#[derive(Clone, Copy, Debug, PartialEq, Eq)]
#[repr(C)]
pub struct Log {
    /// Rows in the lent buffer since they were last taken, at most 1,024.
    pub stored: u16,
    /// Rows that found no room, since making.
    pub dropped: u64,
}

/// The command under way where `current` is 2, else zeros.
#[derive(Clone, Copy, Debug, PartialEq, Eq)]
#[repr(C)]
pub struct Active {
    /// Data bytes written so far, held at 65,535.
    pub received: u16,
    /// Data bytes read so far, held at 65,535.
    pub read: u16,
    /// By `params`.
    pub least: u16,
    /// By `params`.
    pub most: u16,
    /// Under 10 and 13.
    pub cursor: Cursor,
    /// The command byte.
    pub command: u8,
    /// 0 writes, 1 reads, 2 unsupported, 3 unknown.
    pub kind: u8,
    /// Data bytes: 0 exactly `least`, 1 `least` to `most`, 2 any number.
    pub params: u8,
    /// Diagnostic 4 was told of it.
    pub extra_reported: bool,
    /// Diagnostic 10 was told of it.
    pub past_reported: bool,
}

/// What keeps `BUSY_N` low.
#[derive(Clone, Copy, Debug, PartialEq, Eq)]
#[repr(C)]
pub struct Operation {
    /// When it began.
    pub started: u64,
    /// When it ends.
    pub until: u64,
    /// Of a refresh: the RAM that it drives.
    pub area: Area,
    /// 0 nothing, 1 power on, 2 power off, 3 deep sleep, 4 soft reset, 5 hardware reset, 6 refresh.
    pub work: u8,
    /// Of a refresh: 1 full, 2 partial.
    pub kind: u8,
}

/// The head of the last picture; its greys lie in the lent buffer.
#[derive(Clone, Copy, Debug, PartialEq, Eq)]
#[repr(C)]
pub struct Image {
    /// Refreshes that ended or were cut since making, held at 2^64 - 1.
    pub generation: u64,
    /// The clock at its DRF.
    pub started: u64,
    /// Its end, or the clock at the cut.
    pub at: u64,
    /// Sources.
    pub width: u16,
    /// Gates.
    pub height: u16,
    /// 0 no refresh yet, 1 full, 2 partial.
    pub kind: u8,
    /// Reset cut it.
    pub interrupted: bool,
}

/// The controller. A host hands it back as it came; to look at its fields changes nothing.
///
/// In `variant`, `power`, `current`, `kind`, `params` and `work` any number past the last of its
/// list stands for the last.
#[derive(Clone, Copy, Debug, PartialEq, Eq)]
#[repr(C)]
pub struct Record {
    /// Of the configuration.
    pub panel: Geometry,
    /// Of the configuration.
    pub optics: Optics,
    /// Of the configuration.
    pub timing: Timing,
    /// What 00, 01, 30, 50, 61, 65, 90 and 91 left.
    pub regs: Registers,
    /// What 20 to 24 left.
    pub luts: Luts,
    /// Of the refresh that was started last.
    pub waveform: Waveform,
    /// The command under way.
    pub active: Active,
    /// What runs.
    pub operation: Operation,
    /// The head of the last picture.
    pub image: Image,
    /// The counts of diagnostics.
    pub log: Log,
    /// The clock: the largest time so far.
    pub now: u64,
    /// 0 UC8253, 1 UC8279d.
    pub variant: u8,
    /// Degrees Celsius as a signed byte.
    pub ambient: u8,
    /// 0 running, 1 asleep, 2 in reset.
    pub power: u8,
    /// The supplies are up.
    pub powered: bool,
    /// 11 came after the last plane.
    pub data_flag: bool,
    /// What becomes of a data byte: 0 no command yet, 1 ignored, 2 it belongs to `active`.
    pub current: u8,
    /// Of the configuration: rule 2 at making.
    pub made_by_frame: bool,
    /// The rule in force, which the next refresh starts by: 2, else 1.
    pub vcom_by_frame: bool,
}

/// What a call gives back.
#[derive(Clone, Copy, Debug, PartialEq, Eq)]
#[repr(C)]
pub struct Given {
    /// The record after the call, or as it was handed in where the call was refused.
    pub chip: Record,
    /// The refusal's number, 0 where the call was taken.
    pub refused: u8,
    /// A read's byte, 256 for none; how many rows were taken; else 257.
    pub answer: u16,
}

/// What a question gives back.
#[derive(Clone, Copy, Debug, PartialEq, Eq)]
#[repr(C)]
pub struct Asked {
    /// The answer, 0 where there is none.
    pub value: u64,
    /// The refusal's number.
    pub refused: u8,
    /// There is an answer.
    pub known: bool,
}

const _: () = assert!(size_of::<Area>() == 8 && offset_of!(Area, y1) == 6);
const _: () = assert!(size_of::<Pair>() == 4 && size_of::<Cursor>() == 4);
const _: () = assert!(size_of::<Geometry>() == 6 && size_of::<Optics>() == 16);
const _: () = assert!(size_of::<Timing>() == 304 && offset_of!(Timing, rate) == 296);
const _: () = assert!(size_of::<Registers>() == 28 && offset_of!(Registers, partial) == 26);
const _: () = assert!(size_of::<Luts>() == 210 && size_of::<Group>() == 9);
const _: () = assert!(size_of::<Levels>() == 6 && size_of::<Log>() == 16);
const _: () = assert!(size_of::<Waveform>() == 344 && offset_of!(Waveform, vcom_by_frame) == 336);
const _: () = assert!(size_of::<Active>() == 18 && offset_of!(Active, past_reported) == 16);
const _: () = assert!(size_of::<Operation>() == 32 && offset_of!(Operation, work) == 24);
const _: () = assert!(size_of::<Image>() == 32 && offset_of!(Image, interrupted) == 29);
const _: () = assert!(size_of::<Record>() == 1032 && offset_of!(Record, vcom_by_frame) == 1031);
const _: () = assert!(size_of::<Given>() == 1040 && offset_of!(Given, answer) == 1034);
const _: () = assert!(size_of::<Asked>() == 16 && offset_of!(Asked, known) == 9);

// SAFETY, of each: a pointer and the length after it are those of one slice; a slice behind a `*mut`
// overlaps no other of the call. The questions take numbers alone.
unsafe extern "C" {
    /// Makes a panel from the configuration of a capture file.
    pub fn jollanqe_make(
        file: *const u8,
        file_length: usize,
        old: *mut u8,
        old_length: usize,
        new: *mut u8,
        new_length: usize,
        states: *mut i64,
        states_length: usize,
        picture: *mut u8,
        picture_length: usize,
        rows: *mut u64,
        rows_length: usize,
    ) -> Given;

    /// A command byte.
    pub fn jollanqe_command(
        chip: Record,
        at: u64,
        command: u8,
        old: *mut u8,
        old_length: usize,
        new: *mut u8,
        new_length: usize,
        states: *mut i64,
        states_length: usize,
        picture: *mut u8,
        picture_length: usize,
        rows: *mut u64,
        rows_length: usize,
    ) -> Given;

    /// A data byte.
    pub fn jollanqe_data(
        chip: Record,
        at: u64,
        byte: u8,
        old: *mut u8,
        old_length: usize,
        new: *mut u8,
        new_length: usize,
        states: *mut i64,
        states_length: usize,
        picture: *mut u8,
        picture_length: usize,
        rows: *mut u64,
        rows_length: usize,
    ) -> Given;

    /// The host reads a byte.
    pub fn jollanqe_read(
        chip: Record,
        at: u64,
        old: *mut u8,
        old_length: usize,
        new: *mut u8,
        new_length: usize,
        states: *mut i64,
        states_length: usize,
        picture: *mut u8,
        picture_length: usize,
        rows: *mut u64,
        rows_length: usize,
    ) -> Given;

    /// `RST_N` falls (asserted) or rises.
    pub fn jollanqe_reset(
        chip: Record,
        at: u64,
        asserted: bool,
        old: *mut u8,
        old_length: usize,
        new: *mut u8,
        new_length: usize,
        states: *mut i64,
        states_length: usize,
        picture: *mut u8,
        picture_length: usize,
        rows: *mut u64,
        rows_length: usize,
    ) -> Given;

    /// Time passes.
    pub fn jollanqe_advance(
        chip: Record,
        at: u64,
        old: *mut u8,
        old_length: usize,
        new: *mut u8,
        new_length: usize,
        states: *mut i64,
        states_length: usize,
        picture: *mut u8,
        picture_length: usize,
        rows: *mut u64,
        rows_length: usize,
    ) -> Given;

    /// Time passes, and VCOM goes by frame (rule 2) or by phase from the next refresh on.
    pub fn jollanqe_vcom_rule(
        chip: Record,
        at: u64,
        by_frame: bool,
        old: *mut u8,
        old_length: usize,
        new: *mut u8,
        new_length: usize,
        states: *mut i64,
        states_length: usize,
        picture: *mut u8,
        picture_length: usize,
        rows: *mut u64,
        rows_length: usize,
    ) -> Given;

    /// Events of ten bytes one after the other.
    pub fn jollanqe_run(
        chip: Record,
        events: *const u8,
        events_length: usize,
        answers: *mut u16,
        answers_length: usize,
        old: *mut u8,
        old_length: usize,
        new: *mut u8,
        new_length: usize,
        states: *mut i64,
        states_length: usize,
        picture: *mut u8,
        picture_length: usize,
        rows: *mut u64,
        rows_length: usize,
    ) -> Given;

    /// Takes the stored rows.
    pub fn jollanqe_take(chip: Record, rows: *const u64, rows_length: usize) -> Given;

    /// Whether `BUSY_N` is low at a time.
    pub fn jollanqe_busy(chip: Record, at: u64) -> Asked;

    /// When what runs ends.
    pub fn jollanqe_deadline(chip: Record) -> Asked;

    /// A pixel of the lent plane.
    pub fn jollanqe_bit(
        chip: Record,
        plane: *const u8,
        plane_length: usize,
        x: u16,
        y: u16,
    ) -> Asked;

    /// The picture of the states at a top, 0 standing for 255, into the lent entries.
    pub fn jollanqe_picture(
        chip: Record,
        states: *const i64,
        states_length: usize,
        wide: *mut u16,
        wide_length: usize,
        top: u16,
    ) -> Asked;
}
