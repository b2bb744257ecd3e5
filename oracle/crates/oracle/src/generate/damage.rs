//! Damaged files: one fault or two, so that every refusal and the order of refusals is seen.

use crate::capture::{
    Capture, Configuration, EVENT_BYTES, Event, MOST_BYTES, TAIL_BYTES, TRAILER_BYTES,
};
use crate::refusal::Refusal;
use crate::rng::Rng;

use super::bench::Bench;
use super::rate::{self, Board};
use super::reader;

const LONGEST_SOUND: usize = 60;

/// The faults of a capture with or without a rate.
const OF_ANY: [Refusal; 7] = [
    Refusal::BrokenCapture,
    Refusal::BadEvent,
    Refusal::EmptyPanel,
    Refusal::OversizedPanel,
    Refusal::Swing,
    Refusal::FramePeriod,
    Refusal::TooManyPixels,
];

/// A short accepted capture with one fault or two different ones; with a rate, often that.
pub fn damaged(mut bench: Bench, board: Option<Board>) -> Vec<u8> {
    reader::turns(&mut bench);
    let mut rng = Rng::new(bench.rng.any());
    let mut capture = bench.capture();
    capture
        .events
        .truncate(rng.between(1, LONGEST_SOUND as u64) as usize);
    let first = rng.pick(&OF_ANY);
    let mut faults = vec![first];
    if rng.chance(45) {
        faults.push(rng.pick(&OF_ANY));
    }
    if let Some(mut board) = board
        && board.rng.chance(50)
    {
        faults.truncate(board.rng.below(2) as usize);
        faults.push(Refusal::Rate);
    }
    for &fault in &faults {
        damage(&mut rng, &mut capture, fault);
    }
    let mut file = capture.encode();
    if faults.contains(&Refusal::BrokenCapture) {
        file = broken(&mut rng, &capture, file);
    }
    file
}

/// The faults that a whole file can have.
fn damage(rng: &mut Rng, capture: &mut Capture, fault: Refusal) {
    let of = &mut capture.configuration;
    match fault {
        Refusal::EmptyPanel => match rng.below(3) {
            0 => of.sources = 0,
            1 => of.gates = 0,
            _ => (of.sources, of.gates) = (0, 0),
        },
        Refusal::OversizedPanel => match rng.below(4) {
            0 => of.sources = 801,
            1 => of.gates = 601,
            2 => of.sources = rng.between(801, 65_535) as u16,
            _ => of.gates = rng.between(601, 65_535) as u16,
        },
        Refusal::Swing => of.full_swing = rng.pick(&[0, 1 << 63, (1 << 63) + 1, u64::MAX]),
        Refusal::FramePeriod => of.periods[rng.below(32) as usize] = 0,
        Refusal::TooManyPixels => crowd(rng, of),
        Refusal::BadEvent => bad_event(rng, capture),
        Refusal::Rate => of.rate = Some(rng.pick(&rate::REFUSED)),
        Refusal::BrokenCapture => {}
    }
}

/// Just above 8,000 pixels, or far; a side that another fault set stays.
fn crowd(rng: &mut Rng, of: &mut Configuration) {
    let (sources, gates) = rng.pick(&[(127, 63), (800, 11), (667, 12), (63, 127), (800, 600)]);
    if of.sources > 800 || of.gates > 600 {
        (of.sources, of.gates) = (of.sources.max(sources), of.gates.max(gates));
    } else if of.sources != 0 && of.gates != 0 {
        (of.sources, of.gates) = (sources, gates);
    }
}

fn bad_event(rng: &mut Rng, capture: &mut Capture) {
    let at = rng.below(capture.events.len() as u64) as usize;
    let Event { kind, value, .. } = &mut capture.events[at];
    match rng.below(7) {
        0 => capture.configuration.variant = rng.between(2, 255) as u8,
        1 => capture.configuration.flags |= 16 << rng.below(4),
        2 => *kind = rng.pick(&[0, 7, 8, 255]),
        3 => (*kind, *value) = (3, rng.between(1, 255) as u8),
        4 => (*kind, *value) = (4, rng.between(2, 255) as u8),
        5 => (*kind, *value) = (6, rng.pick(&[0, 3, 4, 128, 255])),
        _ => (*kind, *value) = (5, rng.between(1, 255) as u8),
    }
}

/// `file`, the bytes of `capture`, broken.
fn broken(rng: &mut Rng, capture: &Capture, mut file: Vec<u8>) -> Vec<u8> {
    let trailer = file.len() - TRAILER_BYTES;
    match rng.below(10) {
        0 if capture.configuration.rate.is_some() && rng.chance(50) => half_rate(&mut file),
        0 => file.truncate(rng.below(file.len() as u64) as usize),
        1 => file.truncate(rng.below(TAIL_BYTES as u64) as usize),
        2 => file.extend([0].repeat(rng.between(1, 20) as usize)),
        3 => file[trailer] ^= 1 << rng.below(8),
        4 => file[trailer + 4] ^= 1 << rng.below(8),
        5 => {
            file.drain(..EVENT_BYTES);
        }
        6 => return wrapped(capture),
        7 => return one_too_many(capture),
        8 => file.splice(..0, [0; EVENT_BYTES]).for_each(drop),
        _ => file.splice(..0, vec![0; MOST_BYTES]).for_each(drop),
    }
    file
}

/// Offset 4 and a count whose tenfold is 4 modulo 2^32.
fn wrapped(capture: &Capture) -> Vec<u8> {
    let sound = capture.encode();
    let tail = capture.configuration.tail_bytes();
    let mut file = vec![0; 4];
    file.extend(&sound[sound.len() - tail..sound.len() - TRAILER_BYTES]);
    file.extend(4_u32.to_le_bytes());
    file.extend(429_496_730_u32.to_le_bytes());
    file
}

/// Half of the rate is lost: the offset and 324 bytes.
fn half_rate(file: &mut Vec<u8>) {
    let trailer = file.len() - TRAILER_BYTES;
    file.drain(trailer - 4..trailer);
}

/// A sound file but for its length: 6,522 events, with a rate 6,521.
fn one_too_many(capture: &Capture) -> Vec<u8> {
    let mut crowded = capture.clone();
    let last = capture.events[capture.events.len() - 1];
    let most = capture.configuration.most_events();
    crowded.events.resize(most + 1, last);
    crowded.encode()
}
