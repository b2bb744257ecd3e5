//! Captures made from a seed: realistic runs, hostile ones and damaged files, a third of them with a
//! rate, and two in five by a host that chooses VCOM's rule.

pub mod bench;
mod damage;
pub mod host;
pub mod hostile;
pub mod panel;
pub mod rate;
pub mod reader;
pub mod rules;
mod settings;
pub mod tables;
pub mod window;

use crate::capture::Capture;
use crate::rng::Rng;

use bench::Bench;
use host::Host;

/// The file of `seed`, always the same.
pub fn make(seed: u64) -> Vec<u8> {
    file(seed, Host::of(seed))
}

/// The file of `seed` where its board has no rate and VCOM goes by rule 1.
pub fn plain(seed: u64) -> Vec<u8> {
    file(seed, Host::plain())
}

/// The file of `seed` with its rate, where VCOM goes by rule 1.
pub fn rated(seed: u64) -> Vec<u8> {
    file(
        seed,
        Host {
            board: rate::board(seed),
            ..Host::plain()
        },
    )
}

/// The file of `seed` with its choice of rules and no rate.
pub fn ruled(seed: u64) -> Vec<u8> {
    file(
        seed,
        Host {
            rules: rules::rules(seed),
            ..Host::plain()
        },
    )
}

fn file(seed: u64, mut host: Host) -> Vec<u8> {
    let mut rng = Rng::new(seed);
    let draw = rng.below(1_000);
    let panel = match draw {
        122..=221 | 282..=381 => panel::extreme(rng),
        _ => panel::matched(rng),
    };
    let bench = Bench::new(host.with(panel));
    let mut capture = match draw {
        0..=99 => return damage::damaged(bench, host.board),
        100..=104 => bench.capture(),
        105..=109 => full(bench),
        110..=121 => hostile::flood(bench),
        122..=281 => hostile::storm(bench),
        _ => reader::run(bench),
    };
    host.add(&mut capture);
    if let Some(board) = &mut host.board {
        board.spoil(&mut capture);
    }
    capture.encode()
}

/// A run that goes on until no further event fits.
fn full(mut bench: Bench) -> Capture {
    while bench.has_room() {
        reader::turns(&mut bench);
    }
    bench.capture()
}
