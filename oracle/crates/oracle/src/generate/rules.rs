//! Hosts that choose VCOM's rule (2026-08), drawn by seed apart from all else: what a seed makes
//! without one does not depend on them.

use crate::capture::{self, Capture, Event, VCOM_BY_FRAME};
use crate::rng::Rng;

use super::bench::Panel;

/// Keeps these draws apart from those of the capture.
const MARK: u64 = 0x7663_6F6D;
/// The command that starts a refresh.
const DRF: u8 = 0x12;

/// The draws of a host that chooses the rule.
pub struct Rules {
    rng: Rng,
}

/// Two seeds in five have such a host.
pub fn rules(seed: u64) -> Option<Rules> {
    let mut rng = Rng::new(seed ^ MARK);
    (rng.below(5) < 2).then_some(Rules { rng })
}

impl Rules {
    /// The panel as this host makes it: most often by rule 2, and VCOM in a timing of its own.
    pub fn with(&mut self, mut panel: Panel) -> Panel {
        if self.rng.chance(65) {
            panel.configuration.flags |= VCOM_BY_FRAME;
        }
        panel.own_vcom = self.rng.chance(80);
        panel
    }

    /// Events of kind 6 among those of a run: none, a few at any place, or some around each start
    /// of a refresh; no other event moves. None where there would be more than `most`.
    pub fn add(&mut self, capture: &mut Capture, most: usize) {
        let around = match self.rng.below(4) {
            0 => return,
            1 => 0,
            _ => 35,
        };
        let anywhere = self.rng.pick(&[0, 1, 3, 8]);
        let mut events = Vec::new();
        for &event in &capture.events {
            let starts = (event.kind, event.value) == (capture::COMMAND, DRF);
            if starts && self.rng.chance(around) {
                events.push(self.change(event.time));
            }
            events.push(event);
            if starts && self.rng.chance(around) || self.rng.below(100) < anywhere {
                events.push(self.change(event.time));
            }
        }
        if events.len() <= most {
            capture.events = events;
        }
    }

    /// A change of the rule about a time, now and then before it or after it.
    fn change(&mut self, time: u64) -> Event {
        let rng = &mut self.rng;
        let time = match rng.below(10) {
            0 => rng.below(time.saturating_add(1)),
            1 => time.saturating_add(rng.wide(12)),
            _ => time,
        };
        Event {
            time,
            kind: capture::VCOM_RULE,
            value: rng.pick(&[1, 2, 2]),
        }
    }
}
