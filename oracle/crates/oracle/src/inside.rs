//! What the published chip keeps to itself, read from the words that it prints of itself
//! (`Debug`): the waveform and the pixels' numbers of the refresh that runs, and the states.

use std::fmt::Debug;
use std::str::FromStr;

use chips::uc8253::Uc8253;

use crate::vcom::{GROUPS, Group, TABLES, Waveform};

/// A refresh as the chip noted it at its start, and the states there.
pub struct Inside {
    pub waveform: Waveform,
    /// The table of each pixel, 1 to 4, or 255.
    pub numbers: Vec<u8>,
    pub states: Vec<i64>,
}

/// What stands between two marks, and what follows.
fn between<'a>(text: &'a str, from: &str, to: &str) -> (&'a str, &'a str) {
    let found = text
        .split_once(from)
        .and_then(|(_, rest)| rest.split_once(to));
    found.unwrap_or_else(|| panic!("the chip prints {from} and {to}"))
}

/// Every number of a text.
fn numbers<T: FromStr<Err: Debug>>(text: &str) -> Vec<T> {
    text.split(|byte: char| !byte.is_ascii_digit() && byte != '-')
        .filter(|word| !word.is_empty())
        .map(|word| word.parse().expect("a number that fits"))
        .collect()
}

fn group(numbers: &[u8]) -> Group {
    Group {
        codes: [0, 1, 2, 3].map(|phase| numbers[phase]),
        frames: [4, 5, 6, 7].map(|phase| numbers[phase]),
        repeats: numbers[8],
    }
}

/// The states of a chip, whether a refresh runs on it or not.
pub fn states(chip: &Uc8253) -> Vec<i64> {
    let text = format!("{chip:?}");
    let (states, rest) = between(&text, " states: [", "]");
    assert!(!rest.contains(" states: ["));
    numbers(states)
}

/// The bytes of a group as they are printed.
const GROUP_NUMBERS: usize = 9;

/// Of a chip on which a refresh runs.
pub fn look(chip: &Uc8253) -> Inside {
    let text = format!("{chip:?}");
    let (groups, rest) = between(&text, "waveform: Waveform { groups: ", "levels: Levels { ");
    let (levels, rest) = rest.split_once("}, ").expect("the levels end");
    let (period, rest) = between(rest, "frame_ns: ", " }");
    let (pixels, rest) = between(rest, "luts: [", "]");
    let (states, _) = between(rest, "states: [", "]");
    let groups: Vec<u8> = numbers(groups);
    assert_eq!(groups.len(), TABLES * GROUPS * GROUP_NUMBERS);
    let groups: Vec<Group> = groups.chunks(GROUP_NUMBERS).map(group).collect();
    let levels: Vec<i64> = numbers(levels);
    Inside {
        waveform: Waveform {
            tables: std::array::from_fn(|table| {
                std::array::from_fn(|group| groups[table * GROUPS + group])
            }),
            levels: levels.try_into().expect("three levels"),
            period: numbers(period)[0],
        },
        numbers: numbers(pixels),
        states: numbers(states),
    }
}
