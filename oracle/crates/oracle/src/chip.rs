//! The judge of a panel: the published chip, and beside it VCOM's rule, which it does not know
//! (2026-08).
//!
//! The published chip meets every event; for one of kind 6 it advances. It gives every answer, and
//! the pictures too as long as each refresh was begun under rule 1, or with tables of which both
//! rules say the same. From the first other refresh on the states are walked here, frame by frame,
//! from where the chip had them: by each refresh's rule, whole or cut where the chip cut it.

use std::collections::HashMap;

use chips::probe;
use chips::uc8253::{Diagnostic, PanelImage, Plane, Uc8253, Uc8253Config};
use emu_core::{Cycles, Level};

use crate::capture::{self, Event};
use crate::clock::Clock;
use crate::inside::{self, Inside};
use crate::vcom::{self, Glass, Rule, TABLES, Waveform};

const DRF: u8 = 0x12;

/// What a read event gives: outer none for an event that is no read.
pub type Answer = Option<Option<u8>>;

/// Refreshes that ended or were cut, by who judges them.
#[derive(Clone, Copy, Debug, Default, PartialEq, Eq)]
pub struct Judges {
    /// Rule 1, by the published chip.
    pub first: u64,
    /// Rule 2 with tables of which both rules say the same, by the published chip.
    pub alike: u64,
    /// Rule 2, walked.
    pub second: u64,
    /// Of either rule, walked since a refresh before it was.
    pub after: u64,
}

impl Judges {
    pub fn add(&mut self, more: Judges) {
        self.first += more.first;
        self.alike += more.alike;
        self.second += more.second;
        self.after += more.after;
    }

    /// Those of which the published chip alone could not tell the picture.
    pub fn walked(self) -> u64 {
        self.second + self.after
    }
}

/// A refresh that is walked.
struct Walked {
    rule: Rule,
    waveform: Waveform,
    numbers: Vec<u8>,
}

/// Who judges the refresh that runs.
enum Running {
    Nothing,
    /// The published chip; under rule 2 the tables are of one timing.
    Published(Rule),
    Walked(Walked),
}

/// States and picture, where they are no longer the published chip's.
struct Own {
    states: Vec<i64>,
    image: PanelImage,
}

pub struct Chip {
    published: Uc8253,
    clock: Clock,
    glass: Glass,
    rule: Rule,
    running: Running,
    generation: u64,
    own: Option<Own>,
    judges: Judges,
    walks: Walks,
}

/// Which refreshes are walked.
#[derive(Clone, Copy, PartialEq, Eq)]
enum Walks {
    /// Those that the published chip cannot judge.
    Needed,
    /// None: nobody asks for pictures.
    Never,
    /// Each, to hold the walk to the published chip.
    #[cfg(test)]
    Always,
}

impl Chip {
    pub fn new(published: Uc8253, clock: Clock, rule: Rule) -> Chip {
        let optics = published.config().optics;
        Chip {
            clock,
            glass: Glass {
                swing: i64::try_from(optics.full_swing).expect("the chip was made"),
                positive_drives_black: optics.positive_drives_black,
            },
            rule,
            running: Running::Nothing,
            generation: 0,
            own: None,
            judges: Judges::default(),
            walks: Walks::Needed,
            published,
        }
    }

    /// The same with every refresh walked, also where the published chip can judge it.
    #[cfg(test)]
    pub fn walking_all(self) -> Chip {
        Chip {
            walks: Walks::Always,
            ..self
        }
    }

    /// The same with none walked, for a run whose pictures nobody asks for.
    pub fn without_pictures(self) -> Chip {
        Chip {
            walks: Walks::Never,
            ..self
        }
    }

    #[cfg(test)]
    pub fn published(&self) -> &Uc8253 {
        &self.published
    }

    /// Lets the chip meet one listed event. Each call of the published chip advances first, so it
    /// may be advanced before; what runs then was begun by the call itself.
    pub fn meet(&mut self, event: Event) -> Answer {
        let now = Cycles(event.time);
        self.published.advance(now);
        self.follow();
        match event.kind {
            capture::COMMAND => self.command(now, event.value),
            capture::DATA => self.published.write_data(now, event.value),
            capture::READ => return Some(self.published.read_data(now)),
            capture::RESET => self.published.set_reset(now, event.value == 1),
            capture::VCOM_RULE => self.rule = Rule::of(event.value == Rule::ByFrame.number()),
            _ => {}
        }
        self.follow();
        None
    }

    fn command(&mut self, now: Cycles, command: u8) {
        let idle = self.published.next_deadline().is_none();
        self.published.write_command(now, command);
        if command == DRF && idle && self.published.next_deadline().is_some() {
            self.begin();
        }
    }

    /// Whether a refresh that has begun may have to be walked.
    fn may_walk(&self) -> bool {
        match self.walks {
            Walks::Needed => self.rule == Rule::ByFrame || self.own.is_some(),
            Walks::Never => false,
            #[cfg(test)]
            Walks::Always => true,
        }
    }

    /// A refresh has begun, by the rule in force.
    fn begin(&mut self) {
        let rule = self.rule;
        self.running = Running::Published(rule);
        if !self.may_walk() {
            return;
        }
        let Inside {
            waveform,
            numbers,
            states,
        } = inside::look(&self.published);
        if self.walks == Walks::Needed && self.own.is_none() && waveform.rules_agree() {
            return;
        }
        let image = self.published.panel_image();
        self.own.get_or_insert_with(|| Own {
            states,
            image: image.clone(),
        });
        self.running = Running::Walked(Walked {
            rule,
            waveform,
            numbers,
        });
    }

    /// Where the published chip has published a picture, the refresh that ran has ended.
    fn follow(&mut self) {
        let image = self.published.panel_image();
        if image.generation == self.generation {
            return;
        }
        self.generation = image.generation;
        match std::mem::replace(&mut self.running, Running::Nothing) {
            Running::Nothing => unreachable!("a picture is a refresh's"),
            Running::Published(Rule::ByPhase) => self.judges.first += 1,
            Running::Published(Rule::ByFrame) => self.judges.alike += 1,
            Running::Walked(walked) => {
                match walked.rule {
                    Rule::ByFrame if !walked.waveform.rules_agree() => self.judges.second += 1,
                    _ => self.judges.after += 1,
                }
                self.walk(&walked);
            }
        }
    }

    /// Drives the own states as the refresh does, and draws them.
    fn walk(&mut self, walked: &Walked) {
        let image = self.published.panel_image().clone();
        let elapsed = self.clock.nanos(image.at.get() - image.started.get());
        let frames = image
            .interrupted
            .then_some(elapsed / walked.waveform.period);
        let mut drives: [Option<Vec<i128>>; TABLES] = Default::default();
        let mut ends: HashMap<(u8, i64), i64> = HashMap::new();
        let own = self.own.as_mut().expect("a walk has states");
        for (state, &number) in own.states.iter_mut().zip(&walked.numbers) {
            let table = usize::from(number);
            if table >= TABLES {
                continue;
            }
            let drives = drives[table].get_or_insert_with(|| {
                let waveform = &walked.waveform;
                waveform.drives(table, walked.rule, self.glass, frames)
            });
            *state = *ends
                .entry((number, *state))
                .or_insert_with(|| vcom::walk(drives, self.glass.swing, *state));
        }
        let grey = |&state: &i64| probe::gray(state, self.glass.swing);
        own.image = PanelImage {
            pixels: own.states.iter().map(grey).collect(),
            ..image
        };
    }

    pub fn rule(&self) -> Rule {
        self.rule
    }

    pub fn judges(&self) -> Judges {
        self.judges
    }

    /// The last picture.
    pub fn panel_image(&self) -> &PanelImage {
        match &self.own {
            None => self.published.panel_image(),
            Some(own) => &own.image,
        }
    }

    /// Where each pixel stands.
    pub fn states(&self) -> Vec<i64> {
        match &self.own {
            None => inside::states(&self.published),
            Some(own) => own.states.clone(),
        }
    }

    /// The drive from black to white.
    pub fn swing(&self) -> i64 {
        self.glass.swing
    }

    // What the published chip answers alone.

    pub fn config(&self) -> &Uc8253Config {
        self.published.config()
    }

    pub fn ram_bit(&self, plane: Plane, x: u16, y: u16) -> Option<bool> {
        self.published.ram_bit(plane, x, y)
    }

    pub fn is_powered(&self) -> bool {
        self.published.is_powered()
    }

    pub fn is_asleep(&self) -> bool {
        self.published.is_asleep()
    }

    pub fn busy_pin(&self, now: Cycles) -> Level {
        self.published.busy_pin(now)
    }

    pub fn next_deadline(&self) -> Option<Cycles> {
        self.published.next_deadline()
    }

    pub fn is_read_command(&self, command: u8) -> bool {
        self.published.is_read_command(command)
    }

    pub fn take_diagnostics(&mut self) -> Vec<Diagnostic> {
        self.published.take_diagnostics()
    }

    pub fn dropped_diagnostics(&self) -> u64 {
        self.published.dropped_diagnostics()
    }
}
