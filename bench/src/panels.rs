//! The panels of the bench, powered and with a waveform loaded.

use oracle::capture::Configuration;
use oracle::rng::Rng;
use oracle::script::x3_panel;

use crate::sides::{DTM1, DTM2, Sides, Stream, sent};

/// Frames of the usual level that make a full swing, about the X3's.
const SWING_FRAMES: u64 = 21;
const USUAL_MILLIVOLTS: u64 = 14_000;

/// VDH, VDL, VDH, VDL.
const BACK_AND_FORTH: u8 = 0x66;

/// A waveform: its name and its five tables.
pub struct Waveform {
    pub name: &'static str,
    tables: [Vec<u8>; 5],
}

/// Six frames, one group: towards the new colour, and a little where it stays.
pub fn short() -> Waveform {
    Waveform {
        name: "a short waveform",
        tables: [
            vec![0x00, 6, 0, 0, 0, 1],
            vec![0x80, 1, 5, 0, 0, 1],
            vec![0x80, 6, 0, 0, 0, 1],
            vec![0x40, 6, 0, 0, 0, 1],
            vec![0x40, 1, 5, 0, 0, 1],
        ],
    }
}

/// Six groups of one frame back and one forth, each 255 times, then the short waveform.
pub fn long() -> Waveform {
    let [vcom, pixels @ ..] = short().tables;
    let after = |codes: u8, last: Vec<u8>| [[codes, 1, 1, 1, 1, 255].repeat(6), last].concat();
    let [ww, kw, wk, kk] = pixels.map(|last| after(BACK_AND_FORTH, last));
    Waveform {
        name: "a long waveform",
        tables: [after(0x00, vcom), ww, kw, wk, kk],
    }
}

/// The X3 with a full swing of 2^`bits`, if that is not its own.
pub fn x3(bits: Option<u32>) -> Configuration {
    let mut configuration = x3_panel();
    if let Some(bits) = bits {
        let swing = 1 << bits;
        configuration.full_swing = swing;
        configuration.periods = [swing / (SWING_FRAMES * USUAL_MILLIVOLTS); 32];
    }
    configuration
}

/// A panel of another size, otherwise the X3's.
pub fn sized(sources: u16, gates: u16) -> Configuration {
    Configuration {
        sources,
        gates,
        ..x3_panel()
    }
}

/// Powered, the whole panel as the area, NEW copied to OLD after a refresh.
pub fn ready(configuration: &Configuration, waveform: &Waveform) -> Sides {
    let mut sides = Sides::new(configuration);
    let width = configuration.sources.next_multiple_of(8).to_be_bytes();
    let height = configuration.gates.to_be_bytes();
    sides.send(0x00, &[0x3F]);
    sides.send(0x61, &[width[0], width[1], height[0], height[1]]);
    sides.send(0x50, &[0x39, 0x07]);
    sides.send(0x30, &[0x09]);
    for (command, table) in (0x20..).zip(&waveform.tables) {
        let mut bytes = table.clone();
        bytes.resize(42, 0);
        sides.send(command, &bytes);
    }
    sides.send(0x04, &[]);
    sides.settle();
    sides
}

/// The pixel bytes of a plane that fills the panel.
pub fn plane_bytes(configuration: &Configuration) -> usize {
    usize::from(configuration.sources.div_ceil(8)) * usize::from(configuration.gates)
}

pub fn noise(rng: &mut Rng, count: usize) -> Vec<u8> {
    (0..count).map(|_| rng.byte()).collect()
}

/// Both planes filled anew with noise, untimed.
pub fn fill(sides: &mut Sides, rng: &mut Rng, bytes: usize) {
    for command in [DTM1, DTM2] {
        let data = noise(rng, bytes);
        sides.meet(Stream::new(sent(sides.clock, command, &data).collect()));
    }
}
