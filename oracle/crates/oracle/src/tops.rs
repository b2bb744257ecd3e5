//! The picture at a top (2026-03), which the published Rust has not: drawn from its states, or from
//! those of the walk, in 128 bits, and written apart from the port.

use crate::chip::Chip;
use crate::{png, run};

/// A picture whose white is its top.
pub struct Shades {
    width: u16,
    height: u16,
    top: u16,
    greys: Vec<u16>,
}

/// The top that a number stands for: 255 where it is 0.
fn named(top: u16) -> u16 {
    if top == 0 { 255 } else { top }
}

/// The grey of a state at a top: to the nearest, halves up, and at most the top.
pub fn grey(state: i64, swing: i64, top: u16) -> u16 {
    let [state, swing] = [state, swing].map(i128::from);
    let top = i128::from(named(top));
    let nearest = (2 * state * top + swing).div_euclid(2 * swing);
    u16::try_from(nearest.min(top)).expect("no state is below 0")
}

impl Shades {
    /// Of a chip as it stands, whether a refresh has ended or not.
    pub fn of(chip: &Chip, top: u16) -> Shades {
        let panel = chip.panel_image();
        let grey = |&state: &i64| grey(state, chip.swing(), top);
        Shades {
            width: panel.width,
            height: panel.height,
            top: named(top),
            greys: chip.states().iter().map(grey).collect(),
        }
    }

    pub fn greys(&self) -> &[u16] {
        &self.greys
    }

    /// A byte a pixel up to a top of 255, else two, the higher first.
    fn samples(&self) -> Vec<u8> {
        let skipped = usize::from(self.top <= 255);
        let bytes = self.greys.iter().map(|grey| grey.to_be_bytes());
        bytes
            .flat_map(|two| two.into_iter().skip(skipped))
            .collect()
    }

    /// A binary graymap (Netpbm P5) with the top as its maxval.
    pub fn graymap(&self) -> Vec<u8> {
        let head = format!("P5\n{} {}\n{}\n", self.width, self.height, self.top);
        [head.as_bytes(), &self.samples()].concat()
    }

    /// A PNG file, whose white is 255 or 65,535.
    pub fn png(&self) -> Vec<u8> {
        let depth = match self.top {
            255 => 8,
            65_535 => 16,
            top => panic!("a PNG file has no white of {top}"),
        };
        png::file(self.width, self.height, depth, &self.samples())
    }
}

/// The picture after the last event at a top, in a form; or the line of a refusal.
fn last(file: &[u8], top: u16, form: impl Fn(&Shades) -> Vec<u8>) -> Vec<u8> {
    match run::accept_any(file) {
        Err(refusal) => run::refused(refusal).into_bytes(),
        Ok((capture, mut chip)) => {
            for &event in &capture.events {
                run::step(&mut chip, event);
            }
            form(&Shades::of(&chip, top))
        }
    }
}

pub fn pgm(file: &[u8], top: u16) -> Vec<u8> {
    last(file, top, Shades::graymap)
}

pub fn png(file: &[u8], top: u16) -> Vec<u8> {
    last(file, top, Shades::png)
}
