//! Writes changes of the five signals as a dump, in a style drawn from a seed.

use oracle::rng::Rng;

use crate::signals::{IN_ORDER, Signal};
use crate::style::{self, Code, Text};
use crate::waves::Waves;

const SCOPE_TYPES: [&str; 5] = ["begin", "fork", "function", "module", "task"];
const VARIABLE_TYPES: [&str; 17] = [
    "event",
    "integer",
    "parameter",
    "real",
    "reg",
    "supply0",
    "supply1",
    "time",
    "tri",
    "triand",
    "trior",
    "trireg",
    "tri0",
    "tri1",
    "wand",
    "wire",
    "wor",
];
const SECTIONS: [&str; 4] = ["$dumpvars", "$dumpall", "$dumpon", "$dumpoff"];
const TEXTS: [&[u8]; 16] = [
    b"today",
    b"$enddefinitions",
    b"$END",
    b"$end;",
    b"x$end",
    b"$comment",
    b"$var",
    b"#5",
    b"0!",
    b"b1",
    b"\x00\x01\x7F",
    b"\xC2\xB5s",
    b"\xFF\xFE",
    b"$",
    b"$dumpvars",
    b"$timescale",
];
const REALS: [&str; 12] = [
    "r0",
    "r-1.5",
    "R+2",
    "r1e9",
    "r3.25E-07",
    "rnan",
    "rNaN",
    "rinf",
    "RINF",
    "r00.0",
    "r1e+0",
    "r12345678901234567890123.5",
];

/// What a dump has besides the changes, in percents at each place.
struct Habits {
    comments: u64,
    others: u64,
    repeats: u64,
    sections: u64,
    vectors: u64,
    zeros: u64,
    times: u64,
}

impl Habits {
    fn draw(rng: &mut Rng) -> Habits {
        let mut percent = |most: u64| rng.pick(&[0, 0, 1, 5, 30]).min(most);
        Habits {
            comments: percent(5),
            others: percent(30),
            repeats: percent(30),
            sections: percent(30),
            vectors: percent(30),
            zeros: percent(30),
            times: percent(30),
        }
    }
}

/// The codes of a dump: the five's, in their order, and those of no signal of the five.
struct Names {
    five: Vec<Code>,
    others: Vec<Code>,
    undeclared: Vec<Code>,
}

impl Names {
    fn draw(rng: &mut Rng, share: bool) -> Names {
        let five = style::codes(rng, share);
        let mut taken = five.clone();
        let mut more = |rng: &mut Rng| {
            let count = rng.pick(&[0, 1, 3, 6]);
            let from = taken.len();
            for _ in 0..count {
                let code = style::new_code(rng, &taken);
                taken.push(code);
            }
            taken[from..].to_vec()
        };
        let others = more(rng);
        let undeclared = more(rng);
        Names {
            five,
            others,
            undeclared,
        }
    }
}

fn as_bytes(words: &[String]) -> Vec<&[u8]> {
    words.iter().map(String::as_bytes).collect()
}

fn text_words(rng: &mut Rng) -> Vec<&'static [u8]> {
    let count = rng.pick(&[0, 1, 2, 5, 20]);
    (0..count).map(|_| rng.pick(&TEXTS)).collect()
}

/// A command whose text may be anything.
fn texted(rng: &mut Rng, keyword: &str) -> Vec<Vec<u8>> {
    let mut words = vec![keyword.as_bytes().to_vec()];
    words.extend(text_words(rng).iter().map(|word| word.to_vec()));
    words.push(b"$end".to_vec());
    words
}

fn variable(rng: &mut Rng, size: &str, code: &[u8], reference: &[String]) -> Vec<Vec<u8>> {
    let of = if rng.chance(50) {
        "wire"
    } else {
        rng.pick(&VARIABLE_TYPES)
    };
    let mut words = vec![b"$var".to_vec(), of.into(), size.into(), code.to_vec()];
    words.extend(as_bytes(reference).iter().map(|word| word.to_vec()));
    words.push(b"$end".to_vec());
    words
}

fn command(words: &[&str]) -> Vec<Vec<u8>> {
    words.iter().map(|word| word.as_bytes().to_vec()).collect()
}

/// The declarations in some order, each as its words.
fn declarations(rng: &mut Rng, names: &Names) -> Vec<Vec<Vec<u8>>> {
    let mut all = Vec::new();
    for keyword in ["$date", "$version", "$comment"] {
        for _ in 0..rng.pick(&[0, 1, 1, 2]) {
            all.push(texted(rng, keyword));
        }
    }
    for _ in 0..rng.pick(&[1, 1, 1, 2]) {
        all.push(if rng.chance(50) {
            command(&["$timescale", "1ns", "$end"])
        } else {
            command(&["$timescale", "1", "ns", "$end"])
        });
    }
    for _ in 0..rng.pick(&[0, 1, 1, 3]) {
        let of = rng.pick(&SCOPE_TYPES);
        let name = rng.pick(&["top", "cs", "\\bench.1", "u[0]", "#", "$x"]);
        all.push(command(&["$scope", of, name, "$end"]));
    }
    for _ in 0..rng.pick(&[0, 1, 1, 3]) {
        all.push(command(&["$upscope", "$end"]));
    }
    for signal in IN_ORDER {
        let size = rng.pick(&["1", "1", "1", "1", "0", "01", "000"]);
        let reference = style::reference(rng, signal);
        all.push(variable(
            rng,
            size,
            &names.five[signal as usize],
            &reference,
        ));
    }
    for code in names.others.iter().chain(&names.five) {
        let is_other = names.others.contains(code);
        if is_other || rng.chance(10) {
            let size = rng.pick(&["1", "8", "0", "64", "4294967297", "36893488147419103233"]);
            let reference = style::other(rng);
            all.push(variable(rng, size, code, &reference));
        }
    }
    if rng.chance(60) {
        for at in (1..all.len()).rev() {
            all.swap(at, rng.below(at as u64 + 1) as usize);
        }
    }
    all
}

/// The writer of what follows the declarations.
struct Simulation<'a, 'b> {
    text: Text<'a>,
    names: &'b Names,
    habits: Habits,
    /// The last value written for each code of the five; 1 before the first.
    levels: Vec<bool>,
    is_in_section: bool,
}

impl Simulation<'_, '_> {
    fn chance(&mut self, percent: u64) -> bool {
        self.text.rng.chance(percent)
    }

    /// Digits of a vector before its last one.
    fn digits(&mut self) -> Vec<u8> {
        let count = match self.text.rng.below(50) {
            0 => self.text.rng.between(100, 600),
            1..=20 => self.text.rng.between(1, 40),
            _ => 0,
        };
        (0..count).map(|_| self.text.rng.pick(b"01xXzZ")).collect()
    }

    /// A change of one bit, as a digit or as a vector.
    fn bit(&mut self, digit: u8, code: &[u8]) {
        if self.chance(self.habits.vectors) {
            let mut vector = vec![self.text.rng.pick(b"bB")];
            vector.extend(self.digits());
            vector.push(digit);
            self.text.words(&[&vector, code]);
        } else {
            self.text.words(&[&[&[digit], code].concat()]);
        }
    }

    fn set(&mut self, signal: Signal, level: bool) {
        let names = self.names;
        let code = &names.five[signal as usize];
        for (at, other) in names.five.iter().enumerate() {
            if other == code {
                self.levels[at] = level;
            }
        }
        self.bit(b'0' + u8::from(level), code);
    }

    /// A change of no signal of the five.
    fn other(&mut self) {
        let names = self.names;
        let among = if self.chance(50) {
            &names.others
        } else {
            &names.undeclared
        };
        if among.is_empty() {
            return;
        }
        let code = &among[self.text.rng.below(among.len() as u64) as usize];
        if self.chance(20) {
            let real = self.text.rng.pick(&REALS);
            self.text.words(&[real.as_bytes(), code]);
        } else {
            let digit = self.text.rng.pick(b"01xXzZ");
            self.bit(digit, code);
        }
    }

    fn repeat(&mut self) {
        let signal = self.text.rng.pick(&IN_ORDER);
        let level = self.levels[signal as usize];
        self.set(signal, level);
    }

    fn end_section(&mut self) {
        if self.is_in_section {
            self.text.words(&[b"$end"]);
            self.is_in_section = false;
        }
    }

    fn time(&mut self, time: u64) {
        self.end_section();
        let zeros = if self.chance(self.habits.zeros) {
            self.text.rng.pick(&[1, 3, 20, 60])
        } else {
            0
        };
        let word = format!("#{}{time}", "0".repeat(zeros));
        self.text.words(&[word.as_bytes()]);
    }

    /// What may stand between two changes, by the habits.
    fn between(&mut self, now: u64, is_told: bool) {
        if self.chance(self.habits.others) {
            self.other();
        }
        if self.chance(self.habits.repeats) {
            self.repeat();
        }
        if is_told && self.chance(self.habits.times) {
            self.time(now);
        }
        if self.chance(self.habits.comments) {
            self.end_section();
            let words = texted(self.text.rng, "$comment");
            let words: Vec<&[u8]> = words.iter().map(Vec::as_slice).collect();
            self.text.words(&words);
        }
        if self.chance(self.habits.sections) {
            if self.is_in_section {
                self.end_section();
            } else {
                let keyword = self.text.rng.pick(&SECTIONS);
                self.text.words(&[keyword.as_bytes()]);
                self.is_in_section = true;
            }
        }
    }

    /// The changes with their times. A first time of 0 need not be told.
    fn waves(&mut self, waves: &Waves) {
        let (mut now, mut is_told) = (0, false);
        if self.chance(60) {
            self.time(0);
            is_told = true;
        }
        for change in &waves.changes {
            if change.time != now {
                self.between(now, is_told);
                self.time(change.time);
                (now, is_told) = (change.time, true);
            }
            self.between(now, is_told);
            self.set(change.signal, change.level);
        }
        self.between(now, is_told);
        if waves.last != now {
            self.time(waves.last);
            is_told = true;
        }
        self.between(waves.last, is_told);
        self.end_section();
    }
}

/// A dump of these changes; with `share`, some of the five are on one code.
pub fn write(rng: &mut Rng, waves: &Waves, share: bool) -> Vec<u8> {
    let names = Names::draw(rng, share);
    let declarations = declarations(rng, &names);
    let habits = Habits::draw(rng);
    let mut text = Text::new(rng);
    for declaration in &declarations {
        let words: Vec<&[u8]> = declaration.iter().map(Vec::as_slice).collect();
        text.words(&words);
    }
    if text.rng.chance(80) {
        text.words(&[b"$enddefinitions", b"$end"]);
    }
    let mut simulation = Simulation {
        text,
        names: &names,
        habits,
        levels: vec![true; IN_ORDER.len()],
        is_in_section: false,
    };
    simulation.waves(waves);
    simulation.text.done()
}
