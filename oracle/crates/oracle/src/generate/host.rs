//! What a seed adds around a run: the rate of its board, and a choice of VCOM's rule.

use crate::capture::Capture;

use super::bench::Panel;
use super::rate::{self, Board};
use super::rules::{self, Rules};

pub struct Host {
    pub board: Option<Board>,
    pub rules: Option<Rules>,
}

impl Host {
    /// The host of a seed, drawn apart from its run.
    pub fn of(seed: u64) -> Host {
        Host {
            board: rate::board(seed),
            rules: rules::rules(seed),
        }
    }

    /// No rate, and rule 1.
    pub fn plain() -> Host {
        Host {
            board: None,
            rules: None,
        }
    }

    /// The panel as this host drives it.
    pub fn with(&mut self, mut panel: Panel) -> Panel {
        if let Some(board) = &mut self.board {
            panel = board.with(panel);
        }
        if let Some(rules) = &mut self.rules {
            panel = rules.with(panel);
        }
        panel
    }

    /// This host's own events among those of a capture that the program takes.
    pub fn add(&mut self, capture: &mut Capture) {
        let most = capture.configuration.most_events();
        if let Some(rules) = &mut self.rules {
            rules.add(capture, most);
        }
    }

    /// The same of a run of any length.
    pub fn add_to_any(&mut self, capture: &mut Capture) {
        if let Some(rules) = &mut self.rules {
            rules.add(capture, usize::MAX);
        }
    }
}
