//! The dump syntax of IEEE 1364 (four-state), a function for each production, and refusal 11 where
//! a word does not fit. A dump is taken whole; nothing here is shared with the port.

use crate::reference::{self, is_number};
use crate::words::{is_printable, words};

/// Refusal 11.
#[derive(Clone, Copy, Debug, PartialEq, Eq)]
pub struct Malformed;

const SCOPE_TYPES: [&[u8]; 5] = [b"begin", b"fork", b"function", b"module", b"task"];
const VARIABLE_TYPES: [&[u8]; 18] = [
    b"event",
    b"integer",
    b"parameter",
    b"real",
    b"realtime",
    b"reg",
    b"supply0",
    b"supply1",
    b"time",
    b"tri",
    b"triand",
    b"trior",
    b"trireg",
    b"tri0",
    b"tri1",
    b"wand",
    b"wire",
    b"wor",
];

const END: &[u8] = b"$end";

#[derive(Clone, Copy, Debug, PartialEq, Eq)]
pub struct Variable<'a> {
    pub name: &'a [u8],
    pub code: &'a [u8],
    /// Wider than a bit.
    pub is_wide: bool,
}

/// What a change says of its code; a vector says its last digit.
#[derive(Clone, Copy, Debug, PartialEq, Eq)]
pub enum Value {
    Bit(bool),
    Unknown,
    Real,
}

#[derive(Clone, Copy, Debug, PartialEq, Eq)]
pub enum Act<'a> {
    Time(u64),
    Change { code: &'a [u8], value: Value },
}

#[derive(Debug, PartialEq, Eq)]
pub struct Dump<'a> {
    pub variables: Vec<Variable<'a>>,
    pub acts: Vec<Act<'a>>,
}

/// The words that are left.
struct Reader<'a, 'b> {
    left: &'b [&'a [u8]],
}

impl<'a> Reader<'a, '_> {
    fn peek(&self) -> Option<&'a [u8]> {
        self.left.first().copied()
    }

    /// The next word, in a text or not.
    fn any(&mut self) -> Result<&'a [u8], Malformed> {
        let (first, left) = self.left.split_first().ok_or(Malformed)?;
        self.left = left;
        Ok(first)
    }

    /// The next word where bytes outside 33 to 126 are malformed.
    fn word(&mut self) -> Result<&'a [u8], Malformed> {
        let word = self.any()?;
        if word.iter().all(|&byte| is_printable(byte)) {
            Ok(word)
        } else {
            Err(Malformed)
        }
    }

    fn end(&mut self) -> Result<(), Malformed> {
        if self.word()? == END {
            Ok(())
        } else {
            Err(Malformed)
        }
    }

    /// `$comment`, `$date`, `$version`: any bytes up to the word `$end`.
    fn text(&mut self) -> Result<(), Malformed> {
        while self.any()? != END {}
        Ok(())
    }

    /// The words up to `$end`.
    fn until_end(&mut self) -> Result<Vec<&'a [u8]>, Malformed> {
        let mut words = Vec::new();
        loop {
            match self.word()? {
                END => return Ok(words),
                word => words.push(word),
            }
        }
    }

    /// Each timescale is 1 ns.
    fn timescale(&mut self) -> Result<(), Malformed> {
        match self.until_end()?[..] {
            [b"1ns"] | [b"1", b"ns"] => Ok(()),
            _ => Err(Malformed),
        }
    }

    fn scope(&mut self) -> Result<(), Malformed> {
        match self.until_end()?[..] {
            [of, _] if SCOPE_TYPES.contains(&of) => Ok(()),
            _ => Err(Malformed),
        }
    }

    /// `$var` type size code reference `$end`; a declaration ends at its first `$end`, so that is no code.
    fn variable(&mut self) -> Result<Variable<'a>, Malformed> {
        let (of, size, code) = (self.word()?, self.word()?, self.word()?);
        let name = reference::name(&self.until_end()?)?;
        if !VARIABLE_TYPES.contains(&of) || !is_number(size) || code == b"$end" {
            return Err(Malformed);
        }
        let zeros = size.iter().take_while(|&&digit| digit == b'0').count();
        let is_wide = !matches!(&size[zeros..], b"" | b"1");
        Ok(Variable {
            name,
            code,
            is_wide,
        })
    }

    /// The declarations: all up to `$enddefinitions`, or to the first word that begins no
    /// declaration. Whether a timescale was among them is told too.
    fn declarations(&mut self) -> Result<(Vec<Variable<'a>>, bool), Malformed> {
        let (mut variables, mut is_scaled) = (Vec::new(), false);
        while let Some(keyword) = self.peek() {
            let mut head = Reader {
                left: &self.left[1..],
            };
            match keyword {
                b"$comment" | b"$date" | b"$version" => head.text()?,
                b"$timescale" => {
                    head.timescale()?;
                    is_scaled = true;
                }
                b"$scope" => head.scope()?,
                b"$upscope" => head.end()?,
                b"$var" => variables.push(head.variable()?),
                b"$enddefinitions" => {
                    head.end()?;
                    self.left = head.left;
                    break;
                }
                _ => break,
            }
            self.left = head.left;
        }
        Ok((variables, is_scaled))
    }

    /// A value change.
    fn change(&mut self) -> Result<Act<'a>, Malformed> {
        let (first, rest) = self.word()?.split_first().ok_or(Malformed)?;
        let (value, code) = match first {
            b'b' | b'B' => (vector(rest)?, self.word()?),
            b'r' | b'R' if is_real(rest) => (Value::Real, self.word()?),
            digit if !rest.is_empty() => (bit(*digit)?, rest),
            _ => return Err(Malformed),
        };
        Ok(Act::Change { code, value })
    }

    /// The changes of a dump section, up to its `$end`.
    fn section(&mut self, acts: &mut Vec<Act<'a>>) -> Result<(), Malformed> {
        while self.peek() != Some(END) {
            acts.push(self.change()?);
        }
        self.end()
    }

    /// What follows the declarations.
    fn simulation(&mut self) -> Result<Vec<Act<'a>>, Malformed> {
        let mut acts = Vec::new();
        while let Some(word) = self.peek() {
            match word {
                b"$comment" => {
                    self.any()?;
                    self.text()?;
                }
                b"$dumpvars" | b"$dumpall" | b"$dumpon" | b"$dumpoff" => {
                    self.any()?;
                    self.section(&mut acts)?;
                }
                [b'#', digits @ ..] => {
                    self.any()?;
                    acts.push(Act::Time(time(digits)?));
                }
                _ => acts.push(self.change()?),
            }
        }
        Ok(acts)
    }
}

fn bit(digit: u8) -> Result<Value, Malformed> {
    match digit {
        b'0' => Ok(Value::Bit(false)),
        b'1' => Ok(Value::Bit(true)),
        b'x' | b'X' | b'z' | b'Z' => Ok(Value::Unknown),
        _ => Err(Malformed),
    }
}

/// The digits after `b`.
fn vector(digits: &[u8]) -> Result<Value, Malformed> {
    let mut last = Err(Malformed);
    for &digit in digits {
        last = Ok(bit(digit)?);
    }
    last
}

/// A number without its sign.
fn unsigned(word: &[u8]) -> &[u8] {
    match word {
        [b'+' | b'-', rest @ ..] => rest,
        _ => word,
    }
}

/// The word after `r`: digits, perhaps a point with digits, perhaps an exponent; or nan or inf. A
/// sign may stand before each of them.
fn is_real(word: &[u8]) -> bool {
    let word = unsigned(word);
    if word.eq_ignore_ascii_case(b"nan") || word.eq_ignore_ascii_case(b"inf") {
        return true;
    }
    let mut parts = word.splitn(2, |byte| matches!(byte, b'e' | b'E'));
    let mantissa = parts.next().unwrap_or_default();
    let exponent = parts.next().is_none_or(|part| is_number(unsigned(part)));
    exponent && mantissa.splitn(2, |&byte| byte == b'.').all(is_number)
}

/// The value of a time's digits, which is at most 2^64 - 1.
fn time(digits: &[u8]) -> Result<u64, Malformed> {
    if !is_number(digits) {
        return Err(Malformed);
    }
    digits.iter().try_fold(0u64, |time, digit| {
        time.checked_mul(10)
            .and_then(|time| time.checked_add(u64::from(digit - b'0')))
            .ok_or(Malformed)
    })
}

/// The dump of these bytes, if they follow the syntax.
pub fn read(dump: &[u8]) -> Result<Dump<'_>, Malformed> {
    let all = words(dump);
    let mut reader = Reader { left: &all };
    let (variables, is_scaled) = reader.declarations()?;
    let acts = reader.simulation()?;
    if is_scaled {
        Ok(Dump { variables, acts })
    } else {
        Err(Malformed)
    }
}
