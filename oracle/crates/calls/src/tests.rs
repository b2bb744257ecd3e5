//! The sample read back by its layout and replayed on the library.

use jollanqe::{Panel, Plane, read_capture};

use crate::sample;

/// Cuts `count` bytes off the front.
fn cut<'a>(bytes: &mut &'a [u8], count: usize) -> &'a [u8] {
    let (front, rest) = bytes.split_at(count);
    *bytes = rest;
    front
}

/// A little-endian number off the front.
fn number(bytes: &mut &[u8], count: usize) -> u64 {
    let front = cut(bytes, count).iter().rev();
    front.fold(0, |number, &byte| number << 8 | u64::from(byte))
}

fn replay(sample: &mut &[u8]) {
    let length = number(sample, 4) as usize;
    let file = cut(sample, length);
    let (configuration, events) = read_capture(file).expect("a sound capture");
    let mut ours = Panel::new(&configuration).expect("made");
    for (index, &event) in events.iter().enumerate() {
        let answer = ours.event(event).expect("taken").number();
        assert_eq!(u64::from(answer), number(sample, 2));
        assert_eq!(ours.busy(event.at), Ok(number(sample, 1) == 1));
        let known = number(sample, 1) == 1;
        let deadline = number(sample, 8);
        assert_eq!(ours.deadline(), Ok(known.then_some(deadline)));
        assert_eq!(ours.rows().len() as u64, number(sample, 2));
        assert_eq!(ours.dropped() & 0xFFFF, number(sample, 2));
        assert_eq!(ours.image().generation & 0xFFFF_FFFF, number(sample, 4));
        let planes = [Plane::Old, Plane::New].map(|plane| ours.plane(plane));
        let digested = index % 16 == 15 || index + 1 == events.len();
        let digest = if digested { sample::digest(planes) } else { 0 };
        assert_eq!(u64::from(digest), number(sample, 4));
    }
}

#[test]
fn the_sample_is_what_the_library_answers() {
    let bytes = sample::bytes();
    assert!(bytes.len() < 400_000);
    let mut rest = &bytes[..];
    while !rest.is_empty() {
        replay(&mut rest);
    }
}
