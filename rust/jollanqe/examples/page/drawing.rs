//! The page of the examples: what is drawn, and what a driver sends for it.

/// The X3's panel.
pub const WIDTH: usize = 792;
pub const HEIGHT: usize = 528;
const ROW_BYTES: usize = WIDTH / 8;

/// Letters of 5 by 7, a byte a row, and how large a dot of them is.
const WORD: [[u8; 7]; 8] = [J, O, L, L, A, N, Q, E];
const J: [u8; 7] = [0x07, 0x02, 0x02, 0x02, 0x02, 0x12, 0x0C];
const O: [u8; 7] = [0x0E, 0x11, 0x11, 0x11, 0x11, 0x11, 0x0E];
const L: [u8; 7] = [0x10, 0x10, 0x10, 0x10, 0x10, 0x10, 0x1F];
const A: [u8; 7] = [0x0E, 0x11, 0x11, 0x1F, 0x11, 0x11, 0x11];
const N: [u8; 7] = [0x11, 0x11, 0x19, 0x15, 0x13, 0x11, 0x11];
const Q: [u8; 7] = [0x0E, 0x11, 0x11, 0x11, 0x15, 0x12, 0x0D];
const E: [u8; 7] = [0x1F, 0x10, 0x10, 0x1E, 0x10, 0x10, 0x1F];
const DOT: usize = 8;
const LEFT: usize = 360;
const TOP: usize = 90;

/// A band of 6 pixels, 12 from the edge.
fn in_frame(x: usize, y: usize) -> bool {
    let edge = x.min(y).min(WIDTH - 1 - x).min(HEIGHT - 1 - y);
    (12..18).contains(&edge)
}

/// From corner to corner.
fn on_diagonal(x: usize, y: usize) -> bool {
    (2 * x).abs_diff(3 * y) <= 6
}

fn in_word(x: usize, y: usize) -> bool {
    let (Some(x), Some(y)) = (x.checked_sub(LEFT), y.checked_sub(TOP)) else {
        return false;
    };
    let (column, row) = (x / DOT, y / DOT);
    let (letter, dot) = (column / 6, column % 6);
    dot < 5 && row < 7 && letter < WORD.len() && WORD[letter][row] >> (4 - dot) & 1 == 1
}

/// A plane as it is sent: 1 is white. The X3's last gate is its top row, so the last row goes first.
fn plane(is_black: impl Fn(usize, usize) -> bool) -> Vec<u8> {
    let mut bytes = vec![0xFF; ROW_BYTES * HEIGHT];
    for y in 0..HEIGHT {
        for x in (0..WIDTH).filter(|&x| is_black(x, y)) {
            bytes[ROW_BYTES * (HEIGHT - 1 - y) + x / 8] &= !(0x80 >> (x % 8));
        }
    }
    bytes
}

/// A table of one group with one phase: a level's code in the highest two bits, and frames.
fn table(code: u8, frames: u8) -> Vec<u8> {
    let mut bytes = vec![0; 42];
    bytes[..6].copy_from_slice(&[code, frames, 0, 0, 0, 1]);
    bytes
}

/// A command with its data, or a wait for the end of what it started.
pub enum Step {
    Send(u8, Vec<u8>),
    Wait,
}

/// Power up, tables, the two planes, a refresh. Frame and word turn from white to black; the
/// diagonal is black in both planes, and its table drives it too short a time: it stays grey.
pub fn steps() -> Vec<Step> {
    use Step::{Send, Wait};
    vec![
        Send(0x00, vec![0x3F]), // PSR: tables from the registers
        Send(0x01, vec![0x07, 0x17, 0x3A, 0x3A, 0x03]), // PWR: 14 V, -14 V
        Send(0x61, vec![0x03, 0x18, 0x02, 0x10]), // TRES: 792 by 528
        Send(0x50, vec![0x39, 0x07]), // CDI: 1 is white
        Send(0x30, vec![0x09]), // PLL: 20 ms a frame
        Send(0x20, table(0x00, 22)), // VCOM stays at 0
        Send(0x21, table(0x00, 0)), // white to white: nothing
        Send(0x22, table(0x80, 22)), // black to white
        Send(0x23, table(0x40, 22)), // white to black
        Send(0x24, table(0x40, 9)), // black to black
        Send(0x04, vec![]),     // PON
        Wait,
        Send(0x10, plane(on_diagonal)),
        Send(
            0x13,
            plane(|x, y| in_frame(x, y) || on_diagonal(x, y) || in_word(x, y)),
        ),
        Send(0x12, vec![]), // DRF
        Wait,
    ]
}
