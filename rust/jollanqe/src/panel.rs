//! A panel: the controller's record and the five buffers that its calls are lent.

use std::error::Error;
use std::fmt;

use crate::configuration::Configuration;
use crate::event::{Answer, EVENT_BYTES, Event, NO_READ, What, write_capture};
use crate::raw::{self, Asked, Given, Image, Record};
use crate::refused::Refused;

/// Bytes of a plane: 600 rows of 100 bytes.
pub const PLANE_BYTES: usize = 60_000;
/// Numbers of a stored row: time, kind, three fields.
pub const ROW_NUMBERS: usize = 5;
/// The rows that are kept.
pub const MOST_ROWS: usize = 1_024;
/// Pixels of the largest panel.
const MOST_PIXELS: usize = 800 * 600;

/// One of the two planes of the RAM.
#[derive(Clone, Copy, Debug, PartialEq, Eq, Hash)]
pub enum Plane {
    /// What 10 (DTM1) writes.
    Old,
    /// What 13 (DTM2) writes.
    New,
}

/// What a panel is made of, for a host that stores it or puts one together.
#[derive(Clone, Debug, PartialEq, Eq)]
pub struct Parts {
    /// The controller's record.
    pub record: Record,
    /// The old plane, 60,000 bytes, the first column in a byte's highest bit.
    pub old: Vec<u8>,
    /// The new plane, likewise.
    pub new: Vec<u8>,
    /// Where each pixel stands, 0 black to the full swing; sources × gates.
    pub states: Vec<i64>,
    /// The greys of the last picture, rows from the top left; sources × gates.
    pub picture: Vec<u8>,
    /// The stored rows, 5,120 numbers.
    pub rows: Vec<u64>,
}

/// A panel behind its controller.
///
/// Of a panel that [`Panel::new`] made, no call is ever refused (a theorem of the library), but for a
/// picture at a top into a buffer of another length. One that
/// was put together by [`Panel::from_parts`] may be, by 6, 5 or 7; nothing has changed then.
#[derive(Clone, Debug, PartialEq, Eq)]
pub struct Panel(Parts);

/// Why a run of bytes was not run, or not all of it.
#[derive(Clone, Copy, Debug, PartialEq, Eq)]
pub enum RunError {
    /// So many bytes are no whole events; none was run.
    Ragged(usize),
    /// The first refusal among the events. By 7 the others were run.
    Refused(Refused),
}

impl fmt::Display for RunError {
    fn fmt(&self, f: &mut fmt::Formatter<'_>) -> fmt::Result {
        match self {
            RunError::Ragged(length) => {
                write!(f, "{length} bytes are no whole events of {EVENT_BYTES}")
            }
            RunError::Refused(refused) => refused.fmt(f),
        }
    }
}

impl Error for RunError {}

impl From<Refused> for RunError {
    fn from(refused: Refused) -> RunError {
        RunError::Refused(refused)
    }
}

/// Calls a function of the library that is lent the five buffers of a panel.
macro_rules! lend {
    ($parts:expr, $function:ident($($argument:expr),*)) => {
        // SAFETY: each pointer and length are those of one slice, and no two slices overlap.
        unsafe {
            raw::$function(
                $($argument,)*
                $parts.old.as_mut_ptr(),
                $parts.old.len(),
                $parts.new.as_mut_ptr(),
                $parts.new.len(),
                $parts.states.as_mut_ptr(),
                $parts.states.len(),
                $parts.picture.as_mut_ptr(),
                $parts.picture.len(),
                $parts.rows.as_mut_ptr(),
                $parts.rows.len(),
            )
        }
    };
}

/// The answer of a question that was not refused.
fn answered(asked: Asked) -> Result<Option<u64>, Refused> {
    Refused::test(asked.refused)?;
    Ok(asked.known.then_some(asked.value))
}

impl Panel {
    /// A panel at power-on; refused by 1, 2, 3, 4 or 13.
    pub fn new(configuration: &Configuration) -> Result<Panel, Refused> {
        let file = write_capture(configuration, &[]);
        let pixels = configuration.pixels().min(MOST_PIXELS);
        let mut old = vec![0; PLANE_BYTES];
        let mut new = vec![0; PLANE_BYTES];
        let mut states = vec![0; pixels];
        let mut picture = vec![0; pixels];
        let mut rows = vec![0; ROW_NUMBERS * MOST_ROWS];
        // SAFETY: each pointer and length are those of one slice, and no two slices overlap.
        let given = unsafe {
            raw::jollanqe_make(
                file.as_ptr(),
                file.len(),
                old.as_mut_ptr(),
                old.len(),
                new.as_mut_ptr(),
                new.len(),
                states.as_mut_ptr(),
                states.len(),
                picture.as_mut_ptr(),
                picture.len(),
                rows.as_mut_ptr(),
                rows.len(),
            )
        };
        Refused::test(given.refused)?;
        Ok(Panel(Parts {
            record: given.chip,
            old,
            new,
            states,
            picture,
            rows,
        }))
    }

    /// A panel put together. Nothing is tested here: each call tests what it is handed.
    #[must_use]
    pub fn from_parts(parts: Parts) -> Panel {
        Panel(parts)
    }

    /// What the panel is made of.
    #[must_use]
    pub fn into_parts(self) -> Parts {
        self.0
    }

    /// What the panel is made of, to look at.
    #[must_use]
    pub fn parts(&self) -> &Parts {
        &self.0
    }

    /// Keeps the record that a call gave back, the one handed in where it was refused.
    fn keep(&mut self, given: Given) -> Result<u16, Refused> {
        self.0.record = given.chip;
        Refused::test(given.refused)?;
        Ok(given.answer)
    }

    /// A command byte (D/C# low) at a time.
    pub fn command(&mut self, at: u64, command: u8) -> Result<(), Refused> {
        let given = lend!(self.0, jollanqe_command(self.0.record, at, command));
        self.keep(given).map(drop)
    }

    /// A data byte (D/C# high) at a time.
    pub fn data(&mut self, at: u64, byte: u8) -> Result<(), Refused> {
        let given = lend!(self.0, jollanqe_data(self.0.record, at, byte));
        self.keep(given).map(drop)
    }

    /// The host reads a byte: none where the controller drives nothing.
    pub fn read(&mut self, at: u64) -> Result<Option<u8>, Refused> {
        let given = lend!(self.0, jollanqe_read(self.0.record, at));
        self.keep(given).map(|answer| u8::try_from(answer).ok())
    }

    /// `RST_N` falls (asserted) or rises.
    pub fn reset(&mut self, at: u64, asserted: bool) -> Result<(), Refused> {
        let given = lend!(self.0, jollanqe_reset(self.0.record, at, asserted));
        self.keep(given).map(drop)
    }

    /// Time passes: what has come to its end by then ends.
    pub fn advance(&mut self, at: u64) -> Result<(), Refused> {
        let given = lend!(self.0, jollanqe_advance(self.0.record, at));
        self.keep(given).map(drop)
    }

    /// Time passes, and VCOM goes by frame (true: rule 2) or by phase (rule 1) from the next refresh
    /// on. One that runs ends by the rule that it was started by; no command is closed.
    pub fn vcom_rule(&mut self, at: u64, by_frame: bool) -> Result<(), Refused> {
        let given = lend!(self.0, jollanqe_vcom_rule(self.0.record, at, by_frame));
        self.keep(given).map(drop)
    }

    /// An event by its own call.
    pub fn event(&mut self, event: Event) -> Result<Answer, Refused> {
        let at = event.at;
        match event.what {
            What::Command(byte) => self.command(at, byte)?,
            What::Data(byte) => self.data(at, byte)?,
            What::Read => {
                return Ok(self.read(at)?.map_or(Answer::Nothing, Answer::Byte));
            }
            What::Reset(asserted) => self.reset(at, asserted)?,
            What::Advance => self.advance(at)?,
            What::VcomByFrame(by_frame) => self.vcom_rule(at, by_frame)?,
        }
        Ok(Answer::NoRead)
    }

    /// A command with its data bytes, all at one time.
    pub fn send(&mut self, at: u64, command: u8, data: &[u8]) -> Result<(), Refused> {
        let data = data.iter().map(|&byte| What::Data(byte));
        let whats = [What::Command(command)].into_iter().chain(data);
        let events: Vec<Event> = whats.map(|what| Event { at, what }).collect();
        self.run(&events).map(drop)
    }

    /// Events one after the other in one call, and what each answers. Where one was refused, the
    /// first refusal.
    pub fn run(&mut self, events: &[Event]) -> Result<Vec<Answer>, Refused> {
        let bytes: Vec<u8> = events.iter().flat_map(|event| event.bytes()).collect();
        let mut answers = vec![NO_READ; events.len()];
        self.run_whole(&bytes, &mut answers)?;
        Ok(answers.into_iter().map(Answer::of).collect())
    }

    /// The same of events as a capture has them. `answers[i]` becomes the number of event i's answer
    /// ([`Answer::number`]), as far as there is room. A kind that is not listed does nothing.
    pub fn run_bytes(&mut self, events: &[u8], answers: &mut [u16]) -> Result<(), RunError> {
        if !events.len().is_multiple_of(EVENT_BYTES) {
            return Err(RunError::Ragged(events.len()));
        }
        self.run_whole(events, answers).map_err(RunError::Refused)
    }

    fn run_whole(&mut self, events: &[u8], answers: &mut [u16]) -> Result<(), Refused> {
        let given = lend!(
            self.0,
            jollanqe_run(
                self.0.record,
                events.as_ptr(),
                events.len(),
                answers.as_mut_ptr(),
                answers.len()
            )
        );
        self.keep(given).map(drop)
    }

    /// Takes the stored rows of diagnostics, oldest first.
    pub fn take(&mut self) -> Result<Vec<[u64; ROW_NUMBERS]>, Refused> {
        let rows = &self.0.rows;
        // SAFETY: the pointer and the length are those of one slice.
        let given = unsafe { raw::jollanqe_take(self.0.record, rows.as_ptr(), rows.len()) };
        let count = self.keep(given)?;
        let rows = self.0.rows.as_chunks().0.iter();
        Ok(rows.take(usize::from(count)).copied().collect())
    }

    /// The rows stored since they were last taken, oldest first.
    #[must_use]
    pub fn rows(&self) -> &[[u64; ROW_NUMBERS]] {
        let rows = self.0.rows.as_chunks().0;
        &rows[..rows.len().min(usize::from(self.0.record.log.stored))]
    }

    /// How many rows found no room.
    #[must_use]
    pub fn dropped(&self) -> u64 {
        self.0.record.log.dropped
    }

    /// Whether `BUSY_N` is low at a time.
    pub fn busy(&self, at: u64) -> Result<bool, Refused> {
        // SAFETY: only numbers pass.
        let asked = unsafe { raw::jollanqe_busy(self.0.record, at) };
        Ok(answered(asked)? == Some(1))
    }

    /// When what runs ends; none where nothing runs.
    pub fn deadline(&self) -> Result<Option<u64>, Refused> {
        // SAFETY: only numbers pass.
        answered(unsafe { raw::jollanqe_deadline(self.0.record) })
    }

    /// A pixel of the RAM; none past column 799 or row 599.
    pub fn bit(&self, plane: Plane, x: u16, y: u16) -> Result<Option<bool>, Refused> {
        let plane = self.plane(plane);
        // SAFETY: the pointer and the length are those of one slice.
        let asked = unsafe { raw::jollanqe_bit(self.0.record, plane.as_ptr(), plane.len(), x, y) };
        Ok(answered(asked)?.map(|bit| bit == 1))
    }

    /// The bytes of a plane.
    #[must_use]
    pub fn plane(&self, plane: Plane) -> &[u8] {
        match plane {
            Plane::Old => &self.0.old,
            Plane::New => &self.0.new,
        }
    }

    /// The head of the last picture: its size, generation, kind and times.
    #[must_use]
    pub fn image(&self) -> &Image {
        &self.0.record.image
    }

    /// The greys of the last picture, rows from the top left, 0 black to 255 white.
    #[must_use]
    pub fn picture(&self) -> &[u8] {
        &self.0.picture
    }

    /// A row of the picture; empty past the last.
    #[must_use]
    pub fn picture_row(&self, y: u16) -> &[u8] {
        let width = usize::from(self.image().width);
        let from = usize::from(y) * width;
        self.0.picture.get(from..from + width).unwrap_or_default()
    }

    /// The last picture as a binary graymap (Netpbm P5).
    #[must_use]
    pub fn graymap(&self) -> Vec<u8> {
        let image = self.image();
        let mut bytes = format!("P5\n{} {}\n255\n", image.width, image.height).into_bytes();
        bytes.extend(&self.0.picture);
        bytes
    }

    /// The picture at a top of its own into `wide`, an entry a pixel, 0 black to `top` white; a top of 0
    /// stands for 255. It is drawn from the states: before the first refresh has ended, at top 255 too,
    /// it may be another than [`Panel::picture`]. Refused by 6, by 5 where `wide` or the states have
    /// not sources × gates entries, by 7 for a state out of range; nothing has changed then.
    pub fn picture_at(&self, top: u16, wide: &mut [u16]) -> Result<(), Refused> {
        let states = &self.0.states;
        // SAFETY: each pointer and length are those of one slice, and the two do not overlap.
        let asked = unsafe {
            raw::jollanqe_picture(
                self.0.record,
                states.as_ptr(),
                states.len(),
                wide.as_mut_ptr(),
                wide.len(),
                top,
            )
        };
        Refused::test(asked.refused)
    }

    /// The picture at a top as a binary graymap (Netpbm P5), whose maxval it is: a byte a pixel up to
    /// 255, else two, the higher first.
    pub fn graymap_at(&self, top: u16) -> Result<Vec<u8>, Refused> {
        let mut wide = vec![0; self.0.states.len()];
        self.picture_at(top, &mut wide)?;
        let (image, maxval) = (self.image(), if top == 0 { 255 } else { top });
        let mut bytes = format!("P5\n{} {}\n{maxval}\n", image.width, image.height).into_bytes();
        let skipped = usize::from(maxval <= 255);
        bytes.extend(
            wide.iter()
                .flat_map(|grey| grey.to_be_bytes().into_iter().skip(skipped)),
        );
        Ok(bytes)
    }

    /// The controller's record, to look at.
    #[must_use]
    pub fn record(&self) -> &Record {
        &self.0.record
    }
}
