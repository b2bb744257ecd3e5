//! The two planes of both sides: after an event what changed and what lies around the cursor, and
//! every bit now and then.

use chips::uc8253::{self, RAM_GATES, RAM_SOURCES};
use jollanqe::{PLANE_BYTES, Panel, Plane};
use oracle::chip::Chip;

use crate::difference::{Difference, same};

const ROW_BYTES: usize = RAM_SOURCES as usize / 8;
const PLANES: [Plane; 2] = [Plane::Old, Plane::New];
/// Places at and past the RAM's ends.
const CORNERS: [(u16, u16); 6] = [
    (799, 599),
    (800, 0),
    (0, 600),
    (799, 600),
    (800, 599),
    (65_535, 65_535),
];

fn theirs(plane: Plane) -> uc8253::Plane {
    match plane {
        Plane::Old => uc8253::Plane::Old,
        Plane::New => uc8253::Plane::New,
    }
}

/// Columns 8 `byte` to 8 `byte` + 7 of a row of the Rust's plane, highest bit first.
fn packed(chip: &Chip, plane: uc8253::Plane, byte: u16, row: u16) -> u8 {
    (0..8).fold(0, |bits, bit| {
        bits << 1 | u8::from(chip.ram_bit(plane, 8 * byte + bit, row) == Some(true))
    })
}

/// The bytes of the Rust's plane, rows from the top.
pub fn plane_bytes(chip: &Chip, plane: Plane) -> Vec<u8> {
    let rows = (0..RAM_GATES).flat_map(|row| (0..ROW_BYTES as u16).map(move |byte| (byte, row)));
    rows.map(|(byte, row)| packed(chip, theirs(plane), byte, row))
        .collect()
}

fn compare_byte(ours: &Panel, rust: &Chip, plane: Plane, at: usize) -> Result<(), Difference> {
    let (byte, row) = ((at % ROW_BYTES) as u16, (at / ROW_BYTES) as u16);
    let place = |bits: u8| (plane, 8 * byte, row, bits);
    same(
        "byte of RAM",
        place(ours.plane(plane)[at]),
        place(packed(rust, theirs(plane), byte, row)),
    )
}

/// Every bit of both planes.
pub fn compare_all(ours: &Panel, rust: &Chip) -> Result<(), Difference> {
    for plane in PLANES {
        for at in 0..PLANE_BYTES {
            compare_byte(ours, rust, plane, at)?;
        }
    }
    Ok(())
}

/// The bytes around a place, its neighbours in the row and the rows beside it.
pub fn compare_around(ours: &Panel, rust: &Chip, place: (u16, u16)) -> Result<(), Difference> {
    let (column, row) = (usize::from(place.0 / 8), usize::from(place.1));
    for plane in PLANES {
        for row in row.saturating_sub(1)..=row + 1 {
            for byte in column.saturating_sub(1)..=column + 1 {
                let at = ROW_BYTES * row + byte;
                if at < PLANE_BYTES {
                    compare_byte(ours, rust, plane, at)?;
                }
            }
        }
    }
    Ok(())
}

/// The question for a bit: at a place, and at or past one of the RAM's ends.
pub fn compare_questions(
    ours: &Panel,
    rust: &Chip,
    place: (u16, u16),
    turn: usize,
) -> Result<(), Difference> {
    for (x, y) in [place, CORNERS[turn % CORNERS.len()]] {
        for plane in PLANES {
            let answer = ours.bit(plane, x, y)?;
            same("bit asked for", answer, rust.ram_bit(theirs(plane), x, y))?;
        }
    }
    Ok(())
}

/// Our planes as they were last seen.
pub struct Seen {
    planes: [Vec<u8>; 2],
}

impl Seen {
    pub fn at_making() -> Seen {
        Seen {
            planes: [vec![0; PLANE_BYTES], vec![0; PLANE_BYTES]],
        }
    }

    /// Each byte of ours that changed is the Rust's; they are seen from now on.
    pub fn compare_changed(&mut self, ours: &Panel, rust: &Chip) -> Result<(), Difference> {
        for (plane, seen) in PLANES.into_iter().zip(&mut self.planes) {
            let bytes = ours.plane(plane);
            if bytes == seen {
                continue;
            }
            for at in 0..PLANE_BYTES {
                if bytes[at] != seen[at] {
                    compare_byte(ours, rust, plane, at)?;
                }
            }
            seen.copy_from_slice(bytes);
        }
        Ok(())
    }
}
