//! What a capture shows of VCOM's rules (2026-08).

use crate::capture::{self, Event};
use crate::chip::Chip;
use crate::tally::Facts;
use crate::vcom::Rule;

/// The refresh that runs: its rule, and whether an event named the other one since.
struct Begun {
    rule: Rule,
    changed: bool,
}

#[derive(Default)]
pub struct Rules {
    begun: Option<Begun>,
    /// A refresh began by rule 2.
    had_second: bool,
    /// The last event was a command byte.
    in_command: bool,
}

impl Rules {
    pub fn started(&mut self, facts: &mut Facts, rule: Rule, one_timing: bool) {
        match rule {
            Rule::ByPhase => {
                facts.note_if(self.had_second, "refresh by rule 1 after one by rule 2");
            }
            Rule::ByFrame => {
                facts.note("refresh by rule 2");
                facts.note(match one_timing {
                    true => "refresh by rule 2, tables of one timing",
                    false => "refresh by rule 2, other timings",
                });
                self.had_second = true;
            }
        }
        self.begun = Some(Begun {
            rule,
            changed: false,
        });
    }

    /// The refresh ended; `inner` says whether reset cut it after its first frame and before its
    /// last.
    pub fn ended(&mut self, facts: &mut Facts, inner: bool) {
        let Some(Begun { rule, changed }) = self.begun.take() else {
            return;
        };
        facts.note_if(
            changed,
            match rule {
                Rule::ByPhase => "refresh by rule 1, changed while it ran",
                Rule::ByFrame => "refresh by rule 2, changed while it ran",
            },
        );
        facts.note_if(
            inner && rule == Rule::ByFrame,
            "refresh by rule 2 cut after a frame was driven and before the last",
        );
    }

    /// The chip has met an event; `ended` says whether a picture came of it.
    pub fn met(
        &mut self,
        facts: &mut Facts,
        event: Event,
        chip: &Chip,
        in_reset: bool,
        ended: bool,
    ) {
        let was_in_command = self.in_command;
        self.in_command = event.kind == capture::COMMAND;
        if event.kind != capture::VCOM_RULE {
            return;
        }
        facts.note("rule changed");
        facts.note(match (&self.begun, chip.next_deadline()) {
            (Some(_), Some(_)) => "rule changed while a refresh runs",
            (None, Some(_)) => "rule changed while another operation runs",
            (_, None) => "rule changed with nothing running",
        });
        facts.note_if(chip.is_asleep(), "rule changed while asleep");
        facts.note_if(in_reset, "rule changed in reset");
        facts.note_if(ended, "rule changed in the call that ends a refresh");
        facts.note_if(
            was_in_command,
            "rule changed between a command and its data",
        );
        if let Some(begun) = &mut self.begun {
            begun.changed |= chip.rule() != begun.rule;
        }
    }
}
