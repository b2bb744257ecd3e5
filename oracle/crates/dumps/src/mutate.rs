//! Dumps after a few blows: bytes and words changed, lost, repeated or exchanged.

use oracle::rng::Rng;

use crate::cases::Case;
use crate::make;
use crate::words::is_blank;

const WORDS: [&[u8]; 44] = [
    b"$end",
    b"$comment",
    b"$date",
    b"$var",
    b"$scope",
    b"$upscope",
    b"$timescale",
    b"$enddefinitions",
    b"$dumpvars",
    b"$dumpoff",
    b"$dumpon",
    b"$dumpall",
    b"$dumpports",
    b"$",
    b"#",
    b"#0",
    b"#7",
    b"#18446744073709551615",
    b"#18446744073709551616",
    b"b",
    b"b0",
    b"b1",
    b"bx1",
    b"b1x",
    b"r",
    b"r1.5",
    b"r1.5e-3",
    b"rnan",
    b"0",
    b"1",
    b"2",
    b"x",
    b"z!",
    b"cs",
    b"\\cs",
    b"\\",
    b"cs[0]",
    b"[0]",
    b"[7:0]",
    b"1ns",
    b"ns",
    b"wire",
    b"module",
    b"\x80",
];

const BYTES: [u8; 42] =
    *b"\x00\x08\x09\x0A\x0B\x0C\x0D\x0E\x1F\x20!\"#$%&0123456789bBrRxXzZ[]:\\~\x7F\x80\xFF";

/// The places of the words: first byte, and the byte after the last.
fn places(dump: &[u8]) -> Vec<(usize, usize)> {
    let mut places = Vec::new();
    let mut at = 0;
    for word in dump.split(|&byte| is_blank(byte)) {
        if !word.is_empty() {
            places.push((at, at + word.len()));
        }
        at += word.len() + 1;
    }
    places
}

fn byte_blow(rng: &mut Rng, dump: &mut Vec<u8>) {
    let at = rng.below(dump.len() as u64) as usize;
    let end = (at + rng.between(1, 12) as usize).min(dump.len());
    match rng.below(7) {
        0 => dump[at] ^= 1 << rng.below(8),
        1 => dump[at] = rng.pick(&BYTES),
        2 => dump.insert(at, rng.pick(&BYTES)),
        3 => dump.truncate(at),
        4 => drop(dump.drain(at..end)),
        5 => {
            let end = (at + rng.between(1, 300) as usize).min(dump.len());
            let again = dump[at..end].to_vec();
            dump.splice(at..at, again);
        }
        _ => dump[at] = rng.byte(),
    }
}

fn word_blow(rng: &mut Rng, dump: &mut Vec<u8>) {
    let places = places(dump);
    if places.is_empty() {
        return;
    }
    let any = |rng: &mut Rng| places[rng.below(places.len() as u64) as usize];
    let (from, to) = any(rng);
    let (other_from, other_to) = any(rng);
    let other = dump[other_from..other_to].to_vec();
    let new = rng.pick(&WORDS);
    match rng.below(7) {
        // lost
        0 => drop(dump.drain(from..to)),
        // another in its place
        1 => drop(dump.splice(from..to, new.iter().copied())),
        2 => drop(dump.splice(from..to, other)),
        // one more before it
        3 => drop(dump.splice(from..from, [new, b" "].concat())),
        4 => drop(dump.splice(from..from, [&other[..], b"\n"].concat())),
        // joined with the next
        5 => {
            let blanks = dump[to..]
                .iter()
                .take_while(|&&byte| is_blank(byte))
                .count();
            dump.drain(to..to + blanks);
        }
        // cut in two
        _ => dump.insert(from + (to - from) / 2, b' '),
    }
}

/// Another value in a change or a time: most often still a dump.
fn value_blow(rng: &mut Rng, dump: &mut [u8]) {
    let places = places(dump);
    let starts = places
        .iter()
        .filter(|&&(from, _)| b"01xz#".contains(&dump[from]));
    let starts: Vec<(usize, usize)> = starts.copied().collect();
    if starts.is_empty() {
        return;
    }
    let (from, to) = rng.pick(&starts);
    match dump[from] {
        b'#' if to - from > 1 => {
            let at = rng.between(from as u64 + 1, to as u64 - 1) as usize;
            dump[at] = rng.pick(b"0123456789");
        }
        b'#' => (),
        _ if rng.chance(10) => dump[from] = rng.pick(b"xXzZ"),
        value => dump[from] = value ^ 1,
    }
}

/// A declaration lost or repeated: what 12 tells.
fn declaration_blow(rng: &mut Rng, dump: &mut Vec<u8>) {
    let places = places(dump);
    let is = |index: usize, word: &[u8]| {
        places
            .get(index)
            .is_some_and(|&(from, to)| dump[from..to] == *word)
    };
    let starts: Vec<usize> = (0..places.len()).filter(|&i| is(i, b"$var")).collect();
    if starts.is_empty() {
        return;
    }
    let first = rng.pick(&starts);
    let Some(last) = (first..places.len()).find(|&index| is(index, b"$end")) else {
        return;
    };
    let (from, to) = (places[first].0, places[last].1);
    if rng.chance(50) {
        dump.drain(from..to);
    } else {
        let again = [&dump[from..to], b" "].concat();
        dump.splice(from..from, again);
    }
}

/// A blow or a few.
pub fn strike(rng: &mut Rng, dump: &mut Vec<u8>) {
    for _ in 0..rng.pick(&[1, 1, 1, 1, 2, 3]) {
        match rng.below(10) {
            _ if dump.is_empty() => dump.push(rng.byte()),
            0 | 1 => byte_blow(rng, dump),
            2..=4 => value_blow(rng, dump),
            5 => declaration_blow(rng, dump),
            _ => word_blow(rng, dump),
        }
    }
}

/// A short dump, or one of those made by hand, after a blow or a few.
pub fn mutated(rng: &mut Rng, made: &[Case]) -> Vec<u8> {
    let mut dump = if rng.chance(20) {
        made[rng.below(made.len() as u64) as usize].dump.clone()
    } else {
        make::short(rng)
    };
    strike(rng, &mut dump);
    dump
}
