//! `dumps stats`: what generated dumps cover.

use std::collections::{BTreeMap, BTreeSet};
use std::fmt::Write;

use crate::grammar::{self, Act, Value};
use crate::judge;
use crate::make;
use crate::signals::IN_ORDER;
use crate::words::words;

#[derive(Default)]
struct Counts {
    by: BTreeMap<String, u64>,
    first_bytes: BTreeSet<u8>,
}

impl Counts {
    fn add(&mut self, what: &str, count: usize) {
        *self.by.entry(what.to_string()).or_default() += count as u64;
    }

    fn words(&mut self, dump: &[u8]) {
        let all = words(dump);
        for keyword in [
            "$comment",
            "$enddefinitions",
            "$dumpvars",
            "$dumpall",
            "$dumpon",
            "$dumpoff",
            "$scope",
            "$upscope",
            "$date",
        ] {
            let is_there = all.contains(&keyword.as_bytes());
            self.add(&format!("dumps with {keyword}"), usize::from(is_there));
        }
        let vectors = all.iter().filter(|word| matches!(word[0], b'b' | b'B'));
        self.add("words that begin with b", vectors.count());
        let has = |byte: u8| usize::from(dump.contains(&byte));
        self.add("dumps with a carriage return", has(13));
        self.add("dumps with a form feed", has(12));
        self.add("dumps without a line feed", 1 - has(10));
        let is_blank = dump.last().is_some_and(|&byte| byte <= 32);
        self.add("dumps without a blank at the end", usize::from(!is_blank));
    }

    fn acts(&mut self, dump: &[u8]) {
        let Ok(dump) = grammar::read(dump) else {
            return self.add("malformed", 1);
        };
        let five: BTreeSet<&[u8]> = dump
            .variables
            .iter()
            .filter(|of| IN_ORDER.iter().any(|s| s.name().as_bytes() == of.name))
            .map(|of| of.code)
            .collect();
        let all: BTreeSet<&[u8]> = dump.variables.iter().map(|of| of.code).collect();
        self.first_bytes.extend(five.iter().map(|code| code[0]));
        self.add(
            "dumps with two of the five on one code",
            usize::from(five.len() < 5),
        );
        for act in &dump.acts {
            match *act {
                Act::Time(_) => self.add("times", 1),
                Act::Change { code, value } => {
                    let whose = if five.contains(code) {
                        "the five"
                    } else if all.contains(code) {
                        "others"
                    } else {
                        "undeclared codes"
                    };
                    let what = match value {
                        Value::Bit(_) => "changes",
                        Value::Unknown => "x or z",
                        Value::Real => "reals",
                    };
                    self.add(&format!("{what} of {whose}"), 1);
                }
            }
        }
    }
}

/// Counts over the dumps of `seed`, `seed` + 1, ..
pub fn stats(seed: u64, count: u64) -> String {
    let mut counts = Counts::default();
    let (mut most, mut bytes) = (0, 0);
    for seed in seed..seed + count {
        let made = make::make(seed);
        bytes += made.dump.len();
        counts.words(&made.dump);
        counts.acts(&made.dump);
        match judge::accept(&made.configuration, &made.dump) {
            Err(number) => counts.add(&format!("refused {number:2}"), 1),
            Ok((_, events)) => {
                counts.add("played", 1);
                counts.add("events", events.len());
                most = most.max(events.len());
            }
        }
    }
    let mut text = format!("{count} dumps, {bytes} bytes, at most {most} events\n");
    let _ = writeln!(
        text,
        "{} first bytes of codes of the five",
        counts.first_bytes.len()
    );
    for (what, count) in counts.by {
        let _ = writeln!(text, "{what}: {count}");
    }
    text
}
