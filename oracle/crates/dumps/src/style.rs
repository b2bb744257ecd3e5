//! How a dump is written: its blanks, its codes and its names.

use oracle::rng::Rng;

use crate::signals::{IN_ORDER, Signal};
use crate::words::is_blank;

/// What stands between words, and between commands or changes.
#[derive(Clone, Copy, Debug, PartialEq, Eq)]
pub enum Blanks {
    /// A blank, and a line feed.
    Lines,
    /// A blank, and CR LF.
    CrLf,
    /// A blank each.
    OneLine,
    /// A tab, and a form feed.
    Tabs,
    /// One to three of any.
    Any,
}

const BLANKS: [u8; 6] = [9, 10, 11, 12, 13, 32];

impl Blanks {
    fn draw(rng: &mut Rng) -> Blanks {
        match rng.below(10) {
            0..=3 => Blanks::Lines,
            4 | 5 => Blanks::CrLf,
            6 => Blanks::OneLine,
            7 => Blanks::Tabs,
            _ => Blanks::Any,
        }
    }

    fn write(self, rng: &mut Rng, is_outer: bool, text: &mut Vec<u8>) {
        let blanks: &[u8] = match (self, is_outer) {
            (Blanks::Any, _) => {
                for _ in 0..rng.between(1, 3) {
                    text.push(rng.pick(&BLANKS));
                }
                return;
            }
            (Blanks::Lines, true) => b"\n",
            (Blanks::CrLf, true) => b"\r\n",
            (Blanks::Tabs, true) => b"\x0C",
            (Blanks::Tabs, false) => b"\t",
            _ => b" ",
        };
        text.extend(blanks);
    }
}

/// A dump under construction: words with blanks between them.
pub struct Text<'a> {
    pub rng: &'a mut Rng,
    blanks: Blanks,
    bytes: Vec<u8>,
    is_outer: bool,
}

impl Text<'_> {
    pub fn new(rng: &mut Rng) -> Text<'_> {
        let blanks = Blanks::draw(rng);
        let mut bytes = Vec::new();
        if rng.chance(10) {
            blanks.write(rng, true, &mut bytes);
        }
        Text {
            rng,
            blanks,
            bytes,
            is_outer: false,
        }
    }

    pub fn word(&mut self, word: &[u8]) {
        if !self.bytes.last().is_none_or(|&byte| is_blank(byte)) {
            self.blanks.write(self.rng, self.is_outer, &mut self.bytes);
        }
        self.bytes.extend(word);
        self.is_outer = false;
    }

    pub fn words(&mut self, words: &[&[u8]]) {
        words.iter().for_each(|word| self.word(word));
        self.line();
    }

    /// What comes next stands on a line of its own, where there are lines.
    pub fn line(&mut self) {
        self.is_outer = true;
    }

    /// The bytes, with or without blanks after the last word.
    pub fn done(mut self) -> Vec<u8> {
        if self.rng.chance(60) {
            self.blanks.write(self.rng, true, &mut self.bytes);
        }
        self.bytes
    }
}

pub type Code = Vec<u8>;

/// Words that are something else where no code stands.
const ODD_CODES: [&[u8]; 14] = [
    b"#",
    b"#0",
    b"$",
    b"$var",
    b"$dumpvars",
    b"$comment",
    b"b",
    b"b0",
    b"r",
    b"r1",
    b"0",
    b"1!",
    b"x",
    b"$End",
];

/// Any printable word of a few bytes, or one that looks like something else; never `$end`.
fn code(rng: &mut Rng) -> Code {
    if rng.chance(10) {
        return rng.pick(&ODD_CODES).to_vec();
    }
    let length = match rng.below(20) {
        0 => rng.between(5, 20),
        1..=3 => rng.between(3, 4),
        4..=8 => 2,
        _ => 1,
    };
    let code: Code = (0..length).map(|_| rng.between(33, 126) as u8).collect();
    if code == b"$end" { b"$".to_vec() } else { code }
}

/// A code that none of these is.
pub fn new_code(rng: &mut Rng, taken: &[Code]) -> Code {
    loop {
        let code = code(rng);
        if !taken.contains(&code) {
            return code;
        }
    }
}

/// The codes of the five: five different ones or, where they share, some of them the same.
pub fn codes(rng: &mut Rng, share: bool) -> Vec<Code> {
    let mut codes: Vec<Code> = Vec::new();
    for _ in IN_ORDER {
        let code = if share && !codes.is_empty() && rng.chance(30) {
            codes[rng.below(codes.len() as u64) as usize].clone()
        } else {
            new_code(rng, &codes)
        };
        codes.push(code);
    }
    codes
}

fn index(rng: &mut Rng) -> String {
    let number = rng.wide(40);
    match rng.below(4) {
        0 => "0".to_string(),
        1 => format!("-{number}"),
        _ => number.to_string(),
    }
}

/// A select as one word.
fn select(rng: &mut Rng) -> String {
    let first = index(rng);
    if rng.chance(50) {
        format!("[{first}]")
    } else {
        let last = index(rng);
        format!("[{first}:{last}]")
    }
}

/// A select as words: cut before and after its marks, or not.
fn select_words(rng: &mut Rng) -> Vec<String> {
    let mut words = vec![String::new()];
    for letter in select(rng).chars() {
        let mark = "[:]-".contains(letter);
        if mark && rng.chance(20) {
            words.push(String::new());
        }
        words.last_mut().expect("there is one").push(letter);
        if mark && rng.chance(20) {
            words.push(String::new());
        }
    }
    words.retain(|word| !word.is_empty());
    words
}

/// Names of other signals, some of them close to the five's.
const OTHERS: [&str; 24] = [
    "busy",
    "CS",
    "cs_n",
    "xcs",
    "c",
    "clk2",
    "Clk",
    "mosi_",
    "miso",
    "rst]",
    "a/b.c",
    "#1",
    "$x",
    "b0",
    "1!",
    "[",
    "]cs",
    "\\cs[0]",
    "\\clk[1:0]",
    "\\\\dc",
    "cs[1][0]",
    "rst[2][7:0]",
    "mem[3][0]",
    "\\[0]",
];

/// The words of a reference to a signal of the five.
pub fn reference(rng: &mut Rng, signal: Signal) -> Vec<String> {
    let name = signal.name();
    match rng.below(10) {
        0 => vec![format!("\\{name}")],
        1 => vec![format!("{name}{}", select(rng))],
        2 | 3 => {
            let escape = rng.pick(&["", "\\"]);
            let mut words = vec![format!("{escape}{name}")];
            words.extend(select_words(rng));
            words
        }
        _ => vec![name.to_string()],
    }
}

/// The words of a reference to no signal of the five.
pub fn other(rng: &mut Rng) -> Vec<String> {
    if rng.chance(20) {
        // The first word is then the whole name.
        let mut words = vec![
            rng.pick(&["cs[0]", "clk[1:0]", "mem[a]", "[0]", "data"])
                .to_string(),
        ];
        words.extend(select_words(rng));
        return words;
    }
    vec![rng.pick(&OTHERS).to_string()]
}
