//! The library beside the published Rust: the same events, and after each the same answers.

use chips::uc8253::{PanelImage, RefreshKind};
use emu_core::{Cycles, Level};
use jollanqe::raw::Image;
use jollanqe::{Answer, Panel, Refused};
use oracle::capture::{Capture, Configuration, Event};
use oracle::chip::Chip;
use oracle::clock::Clock;
use oracle::log::Log;
use oracle::refusal::Refusal;
use oracle::rows::{self, KIND_WORDS};
use oracle::run;
use oracle::tops::Shades;
use oracle::vcom::Rule;

use crate::difference::{Difference, same};
use crate::memory::{self, Seen};
use crate::steps::Step;

/// Up to so many pixels the picture is compared after every event, else after each refresh.
const SMALL_PICTURE: usize = 2_048;
/// At which tops the picture of such a panel is asked for when a trace ends, in turn.
const TOPS: [u16; 7] = [65_535, 0, 1, 255, 256, 4_095, 65_534];
/// What an entry of a run's answers holds before: no answer.
const UNANSWERED: u16 = u16::MAX;

/// What stood before the last event.
#[derive(Clone, Copy, Default)]
pub struct Before {
    pub generation: u64,
    pub deadline: Option<u64>,
    cursor: (u16, u16),
}

pub struct Beside {
    /// The board's clock.
    pub board: Clock,
    pub ours: Panel,
    pub rust: Chip,
    /// The same chip, but its rows are taken after every event: they are what the event reported,
    /// which `rust` hands out only where its own rows are taken.
    emptied: Chip,
    /// The rows that must be stored, and how many of them have been compared.
    pub log: Log,
    compared: usize,
    /// Rows so far, by kind, stored or not.
    pub reported: [u64; KIND_WORDS.len()],
    seen: Seen,
    pub before: Before,
    turn: usize,
}

/// Both sides at making, or the refusal that both gave.
pub enum Made {
    Both(Box<Beside>),
    Neither(u8),
}

/// The library's panel of a configuration.
fn panel(configuration: &Configuration) -> Result<Panel, Refused> {
    let capture = Capture {
        configuration: configuration.clone(),
        events: Vec::new(),
    };
    let (configuration, _) = jollanqe::read_capture(&capture.encode())?;
    Panel::new(&configuration)
}

/// A read's answer as the library numbers it.
pub fn answer_number(answer: run::Answer) -> u16 {
    let answer = match answer {
        None => Answer::NoRead,
        Some(None) => Answer::Nothing,
        Some(Some(byte)) => Answer::Byte(byte),
    };
    answer.number()
}

fn kind_number(kind: RefreshKind) -> u8 {
    match kind {
        RefreshKind::PowerOn => 0,
        RefreshKind::Full => 1,
        RefreshKind::Partial => 2,
    }
}

pub fn is_low(chip: &Chip, at: u64) -> bool {
    chip.busy_pin(Cycles(at)) == Level::Low
}

pub fn deadline(chip: &Chip) -> Option<u64> {
    chip.next_deadline().map(|end| end.get())
}

/// Width, height, generation, kind, interruption, start and end.
type Facts = (u16, u16, u64, u8, bool, u64, u64);

fn our_facts(image: &Image) -> Facts {
    (
        image.width,
        image.height,
        image.generation,
        image.kind,
        image.interrupted,
        image.started,
        image.at,
    )
}

fn rust_facts(image: &PanelImage) -> Facts {
    (
        image.width,
        image.height,
        image.generation,
        kind_number(image.kind),
        image.interrupted,
        image.started.get(),
        image.at.get(),
    )
}

impl Beside {
    pub fn make(configuration: &Configuration) -> Result<Made, Difference> {
        let (ours, rust) = match (panel(configuration), run::make_any(configuration)) {
            (Ok(ours), Ok(rust)) => (ours, rust),
            (made, rust) => {
                let refused = made.err().map(Refused::number);
                let number = rust.err().map(Refusal::number);
                same("refusal of making", refused, number)?;
                return Ok(Made::Neither(number.unwrap_or_default()));
            }
        };
        let mut beside = Beside {
            board: configuration.clock().expect("it is made"),
            ours,
            rust,
            emptied: run::make_any(configuration)
                .expect("made once already")
                .without_pictures(),
            log: Log::default(),
            compared: 0,
            reported: [0; KIND_WORDS.len()],
            seen: Seen::at_making(),
            before: Before::default(),
            turn: 0,
        };
        beside.compare(0)?;
        beside.compare_whole()?;
        Ok(Made::Both(Box::new(beside)))
    }

    fn look(&mut self) {
        let cursor = self.ours.record().active.cursor;
        self.before = Before {
            generation: self.rust.panel_image().generation,
            deadline: deadline(&self.rust),
            cursor: (cursor.x, cursor.y),
        };
    }

    /// The Rust meets an event; its answer as the library numbers it.
    fn rust_step(&mut self, event: Event) -> u16 {
        run::step(&mut self.emptied, event);
        for diagnostic in self.emptied.take_diagnostics() {
            let row = rows::numbers(&diagnostic);
            self.reported[row[1] as usize - 1] += 1;
            self.log.add(row);
        }
        answer_number(run::step(&mut self.rust, event))
    }

    /// An event by its own call.
    pub fn single(&mut self, event: Event) -> Result<(), Difference> {
        self.look();
        let ours = jollanqe::Event::listed(event.time, event.kind, event.value)?;
        let given = self.ours.event(ours)?.number();
        same("byte read", given, self.rust_step(event))?;
        self.compare(event.time)
    }

    /// Events by one call of `run`.
    pub fn run(&mut self, steps: &[Step]) -> Result<(), Difference> {
        self.look();
        let mut bytes = Vec::new();
        for step in steps {
            step.event.encode(&mut bytes);
        }
        let mut answers = vec![UNANSWERED; steps.len()];
        self.ours.run_bytes(&bytes, &mut answers)?;
        for (index, (step, given)) in steps.iter().zip(answers).enumerate() {
            let answer = self.rust_step(step.event);
            same("byte read in a run", (index, given), (index, answer))?;
        }
        self.compare(steps.last().map_or(0, |step| step.event.time))
    }

    /// Takes the rows of both.
    pub fn take(&mut self) -> Result<(), Difference> {
        let given = self.ours.take()?;
        let own = self.rust.take_diagnostics();
        let taken = self.log.take();
        if self.log.left_out == 0 {
            let own: Vec<_> = own.iter().map(rows::numbers).collect();
            same("the Rust's own rows", &taken, &own)?;
        }
        same("rows taken", given, taken)?;
        self.compared = 0;
        self.compare_rows()
    }

    /// The end of a trace: every bit, every pixel, every row; of a small panel the picture at a top.
    pub fn end(&mut self) -> Result<(), Difference> {
        self.compare_whole()?;
        self.compare_top()?;
        self.take()
    }

    /// Everything that both show after an event at `time`.
    fn compare(&mut self, time: u64) -> Result<(), Difference> {
        self.compare_busy(time)?;
        self.compare_rows()?;
        let image = self.rust.panel_image();
        same(
            "picture's facts",
            our_facts(self.ours.image()),
            rust_facts(image),
        )?;
        let by_frame = self.rust.rule() == Rule::ByFrame;
        let rule = self.ours.record().vcom_by_frame;
        same("VCOM by frame", rule, by_frame)?;
        self.turn += 1;
        let place = self.before.cursor;
        self.seen.compare_changed(&self.ours, &self.rust)?;
        memory::compare_around(&self.ours, &self.rust, place)?;
        memory::compare_questions(&self.ours, &self.rust, place, self.turn)?;
        if image.generation != self.before.generation {
            return self.compare_whole();
        }
        if image.pixels.len() <= SMALL_PICTURE {
            return self.compare_picture();
        }
        Ok(())
    }

    fn compare_busy(&self, time: u64) -> Result<(), Difference> {
        let end = deadline(&self.rust);
        same("deadline", self.ours.deadline()?, end)?;
        let around = end.map(|end| [end.saturating_sub(1), end, end.saturating_add(1)]);
        for at in [time].into_iter().chain(around.into_iter().flatten()) {
            let ours = (at, self.ours.busy(at)?);
            same("busy pin low", ours, (at, is_low(&self.rust, at)))?;
        }
        Ok(())
    }

    fn compare_rows(&mut self) -> Result<(), Difference> {
        same("stored rows", self.ours.rows().len(), self.log.stored.len())?;
        for row in self.compared..self.log.stored.len() {
            let must = self.log.stored[row];
            same("row", (row, self.ours.rows()[row]), (row, must))?;
        }
        self.compared = self.log.stored.len();
        if self.log.left_out == 0 {
            let own = self.rust.dropped_diagnostics();
            same("the Rust's own dropped rows", self.log.dropped, own)?;
        }
        same("dropped rows", self.ours.dropped(), self.log.dropped)
    }

    fn compare_picture(&self) -> Result<(), Difference> {
        let (ours, rust) = (self.ours.picture(), &self.rust.panel_image().pixels[..]);
        if ours == rust {
            return Ok(());
        }
        let pixel = (0..rust.len()).find(|&pixel| ours.get(pixel) != rust.get(pixel));
        let grey = |of: &[u8]| pixel.map(|pixel| (pixel, of.get(pixel).copied()));
        same("pixel", grey(ours), grey(rust))
    }

    fn compare_top(&self) -> Result<(), Difference> {
        let top = TOPS[self.turn % TOPS.len()];
        let mut wide = vec![0; self.ours.picture().len()];
        if wide.len() > SMALL_PICTURE {
            return Ok(());
        }
        self.ours.picture_at(top, &mut wide)?;
        let shades = Shades::of(&self.rust, top);
        same("picture at a top", (top, &wide[..]), (top, shades.greys()))
    }

    fn compare_whole(&self) -> Result<(), Difference> {
        self.compare_picture()?;
        memory::compare_all(&self.ours, &self.rust)
    }
}
