//! Why a call, a making or a capture is turned back.

use std::error::Error;
use std::fmt;

/// The words by number; 0 is none.
const WORDS: [&str; 14] = [
    "taken",
    "empty panel",
    "oversized panel",
    "swing",
    "frame period",
    "buffer length",
    "foreign record",
    "foreign contents",
    "broken capture",
    "bad event",
    "too many pixels",
    "malformed dump",
    "signals",
    "rate out of range",
];

/// A refusal, by the number and the word of docs/FORMAT.md. Nothing was changed by the call.
#[derive(Clone, Copy, Debug, PartialEq, Eq, Hash)]
pub struct Refused(u8);

impl Refused {
    pub(crate) const BROKEN_CAPTURE: Refused = Refused(8);
    pub(crate) const BAD_EVENT: Refused = Refused(9);

    /// The refusal of a number, if the number is not 0.
    pub(crate) fn test(number: u8) -> Result<(), Refused> {
        match number {
            0 => Ok(()),
            number => Err(Refused(number)),
        }
    }

    /// The number, 1 to 13.
    #[must_use]
    pub fn number(self) -> u8 {
        self.0
    }

    /// The word, such as "buffer length".
    #[must_use]
    pub fn word(self) -> &'static str {
        WORDS.get(usize::from(self.0)).copied().unwrap_or_default()
    }
}

impl fmt::Display for Refused {
    fn fmt(&self, f: &mut fmt::Formatter<'_>) -> fmt::Result {
        write!(f, "refused {}: {}", self.number(), self.word())
    }
}

impl Error for Refused {}
