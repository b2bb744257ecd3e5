//! The counts that `oracle stats` prints, summed over captures.

use std::collections::{BTreeMap, BTreeSet};
use std::fmt::Write;

use crate::chip::Judges;
use crate::generate::rate;
use crate::refusal::Refusal;
use crate::rows::KIND_WORDS;
use crate::watch::{FAMILIES, ITEMS};

/// A refresh that reset cut: when, the whole frames until then, and those of the whole refresh.
#[derive(Clone, Copy, Debug, PartialEq, Eq)]
pub struct Cut {
    pub at: u64,
    pub frames: u64,
    pub of: u64,
}

/// What one accepted capture showed.
#[derive(Default)]
pub struct Facts {
    /// The items of the coverage list that occur in it.
    pub seen: BTreeSet<&'static str>,
    /// Values met, of each family whose members are counted.
    pub values: BTreeMap<&'static str, BTreeSet<u64>>,
    pub ended: u64,
    /// Those that reset cut.
    pub cuts: Vec<Cut>,
    /// Those of them cut after a frame was driven and before the last.
    pub inner: u64,
    pub ended_with_change: bool,
    pub cut_with_change: bool,
    /// A picture that changed has a grey that is neither 0 nor 255.
    pub between: bool,
}

impl Facts {
    pub fn note(&mut self, item: &'static str) {
        self.seen.insert(item);
    }

    pub fn note_if(&mut self, holds: bool, item: &'static str) {
        if holds {
            self.note(item);
        }
    }

    pub fn value(&mut self, family: &'static str, value: impl Into<u64>) {
        self.values.entry(family).or_default().insert(value.into());
    }
}

#[derive(Default)]
pub struct Tally {
    pub captures: u64,
    pub accepted: u64,
    pub refused: BTreeMap<Refusal, u64>,
    /// Two faults in one file, in the order of the tests: the first is the answer.
    pub pairs: BTreeMap<(u8, u8), u64>,
    pub one_fault: u64,
    pub kinds: [Kind; KIND_WORDS.len()],
    pub dropped: u64,
    pub captures_with_dropped: u64,
    pub ended: u64,
    pub cut: u64,
    pub ended_with_change: u64,
    pub cut_with_change: u64,
    pub between: u64,
    pub events: u64,
    pub pixels: u64,
    pub seen: BTreeMap<&'static str, u64>,
    pub values: BTreeMap<&'static str, BTreeSet<u64>>,
    /// The captures with a rate of each class, or with none.
    pub rates: BTreeMap<&'static str, Rated>,
    pub judges: Judges,
}

/// Captures of one class of rates, refused ones too, and the refreshes in those that are accepted.
#[derive(Clone, Copy, Default)]
pub struct Rated {
    pub captures: u64,
    pub ended: u64,
    pub cut: u64,
    /// Cut after a frame was driven and before the last.
    pub inner: u64,
}

/// A kind of diagnostic: the captures it occurs in, and its stored rows.
#[derive(Clone, Copy, Default)]
pub struct Kind {
    pub captures: u64,
    pub rows: u64,
}

impl Tally {
    pub fn add_facts(&mut self, facts: Facts) {
        self.ended += facts.ended;
        self.cut += facts.cuts.len() as u64;
        self.ended_with_change += u64::from(facts.ended_with_change);
        self.cut_with_change += u64::from(facts.cut_with_change);
        self.between += u64::from(facts.between);
        for item in facts.seen {
            assert!(ITEMS.contains(&item), "{item} is on the coverage list");
            *self.seen.entry(item).or_default() += 1;
        }
        for (family, values) in facts.values {
            self.values.entry(family).or_default().extend(values);
        }
    }

    /// A capture with this rate or with none, and what it showed if it was accepted.
    pub fn add_rate(&mut self, rate: Option<u64>, facts: Option<&Facts>) {
        let rated = self.rates.entry(rate::class(rate)).or_default();
        rated.captures += 1;
        if let Some(facts) = facts {
            rated.ended += facts.ended;
            rated.cut += facts.cuts.len() as u64;
            rated.inner += facts.inner;
        }
    }

    pub fn add_rows(&mut self, rows: &[[u64; 5]]) {
        let mut met = [0; KIND_WORDS.len()];
        for row in rows {
            met[row[1] as usize - 1] += 1;
        }
        for (kind, rows) in self.kinds.iter_mut().zip(met) {
            kind.rows += rows;
            kind.captures += u64::from(rows != 0);
        }
    }

    pub fn merge(&mut self, other: Tally) {
        self.captures += other.captures;
        self.accepted += other.accepted;
        merge_counts(&mut self.refused, other.refused);
        merge_counts(&mut self.pairs, other.pairs);
        merge_counts(&mut self.seen, other.seen);
        self.one_fault += other.one_fault;
        for (kind, more) in self.kinds.iter_mut().zip(other.kinds) {
            kind.captures += more.captures;
            kind.rows += more.rows;
        }
        self.dropped += other.dropped;
        self.captures_with_dropped += other.captures_with_dropped;
        self.ended += other.ended;
        self.cut += other.cut;
        self.ended_with_change += other.ended_with_change;
        self.cut_with_change += other.cut_with_change;
        self.between += other.between;
        self.events += other.events;
        self.pixels += other.pixels;
        self.judges.add(other.judges);
        for (class, more) in other.rates {
            let rated = self.rates.entry(class).or_default();
            rated.captures += more.captures;
            rated.ended += more.ended;
            rated.cut += more.cut;
            rated.inner += more.inner;
        }
        for (family, values) in other.values {
            self.values.entry(family).or_default().extend(values);
        }
    }

    pub fn report(&self) -> String {
        let mut text = String::new();
        self.head(&mut text);
        self.refusals(&mut text);
        self.diagnostics(&mut text);
        self.rates(&mut text);
        self.coverage(&mut text);
        text
    }

    fn share(&self, part: u64) -> String {
        let share = part as f64 / self.accepted.max(1) as f64;
        format!("{part} ({:.1} % of the accepted)", 100.0 * share)
    }

    fn head(&self, text: &mut String) {
        let accepted = self.accepted.max(1);
        let _ = writeln!(text, "captures {}", self.captures);
        let _ = writeln!(text, "accepted {}", self.accepted);
        let _ = writeln!(
            text,
            "events an accepted capture {}",
            self.events / accepted
        );
        let _ = writeln!(
            text,
            "pixels an accepted capture {}",
            self.pixels / accepted
        );
        let _ = writeln!(text, "refreshes ended by themselves {}", self.ended);
        let _ = writeln!(text, "refreshes cut by reset {}", self.cut);
        for (who, count) in [
            ("of rule 1, by the Rust", self.judges.first),
            (
                "of rule 2, tables of one timing, by the Rust",
                self.judges.alike,
            ),
            ("of rule 2, walked", self.judges.second),
            (
                "of either rule, walked after one of these",
                self.judges.after,
            ),
        ] {
            let _ = writeln!(text, "refreshes {who} {count}");
        }
        for (what, part) in [
            (
                "ended a refresh that changed a grey",
                self.ended_with_change,
            ),
            ("cut a refresh that changed a grey", self.cut_with_change),
            (
                "a changed picture has a grey other than 0 and 255",
                self.between,
            ),
        ] {
            let _ = writeln!(text, "captures: {what} {}", self.share(part));
        }
    }

    fn refusals(&self, text: &mut String) {
        for refusal in Refusal::IN_ORDER {
            let count = self.refused.get(&refusal).copied().unwrap_or(0);
            let (number, word) = (refusal.number(), refusal.word());
            let _ = writeln!(text, "refused {number} ({word}) {count}");
        }
        let _ = writeln!(text, "files with one fault {}", self.one_fault);
        for ((first, second), count) in &self.pairs {
            let _ = writeln!(
                text,
                "files with two faults, {first} before {second}: {count}"
            );
        }
    }

    fn diagnostics(&self, text: &mut String) {
        for (index, (kind, word)) in self.kinds.iter().zip(KIND_WORDS).enumerate() {
            let number = index + 1;
            let Kind { captures, rows } = kind;
            let _ = writeln!(
                text,
                "kind {number} ({word}) captures {captures} rows {rows}"
            );
        }
        let captures = self.captures_with_dropped;
        let _ = writeln!(text, "dropped captures {captures} rows {}", self.dropped);
    }

    fn rates(&self, text: &mut String) {
        for name in rate::names() {
            let Rated {
                captures,
                ended,
                cut,
                inner,
            } = self.rates.get(name).copied().unwrap_or_default();
            let _ = writeln!(
                text,
                "rate {name}: captures {captures} refreshes ended {ended} cut {cut}, {inner} of them in mid-refresh"
            );
        }
    }

    fn coverage(&self, text: &mut String) {
        for item in ITEMS {
            let count = self.seen.get(item).copied().unwrap_or(0);
            let _ = writeln!(text, "captures: {item} {count}");
        }
        for (family, of) in FAMILIES {
            let met = self.values.get(family).map_or(0, BTreeSet::len);
            let _ = writeln!(text, "values: {family} {met} of {of}");
        }
    }
}

fn merge_counts<K: Ord>(into: &mut BTreeMap<K, u64>, from: BTreeMap<K, u64>) {
    for (key, count) in from {
        *into.entry(key).or_default() += count;
    }
}
