//! A diagnostic as document 01's five numbers: time, kind, its fields, zeros after.

use chips::uc8253::{Diagnostic, DiagnosticKind};

/// The words of the kinds 1 to 15, in the order of `DiagnosticKind`.
pub const KIND_WORDS: [&str; 15] = [
    "unknown command",
    "unsupported command",
    "data without command",
    "extra data",
    "missing data",
    "while busy",
    "while asleep",
    "while in reset",
    "wrong check code",
    "past the window",
    "refresh not modelled",
    "refresh without power",
    "table length",
    "nothing to read",
    "reset during refresh",
];

/// Kind 11's text as its number: 1 OTP, 2 KWR, 3 booster.
fn setting(what: &str) -> u64 {
    match what {
        "the LUTs from the OTP (PSR REG = 0)" => 1,
        "KWR mode (PSR KW/R = 0)" => 2,
        "the booster off (PSR SHD_N = 0)" => 3,
        other => unreachable!("the published Rust has no refresh refused for {other}"),
    }
}

fn kind_and_fields(kind: &DiagnosticKind) -> (u64, [u64; 3]) {
    use DiagnosticKind as K;
    let byte = |command: u8| [u64::from(command), 0, 0];
    match *kind {
        K::UnknownCommand { command } => (1, byte(command)),
        K::UnsupportedCommand { command, .. } => (2, byte(command)),
        K::DataWithoutCommand { data } => (3, byte(data)),
        K::ExtraData { command } => (4, byte(command)),
        K::MissingData {
            command,
            expected,
            received,
        } => (5, [command.into(), expected.into(), received.into()]),
        K::WhileBusy { command } => (6, byte(command)),
        K::WhileAsleep { command } => (7, byte(command)),
        K::WhileInReset { command } => (8, byte(command)),
        K::WrongCheckCode { code } => (9, byte(code)),
        K::PastTheWindow { command } => (10, byte(command)),
        K::RefreshNotModelled { what } => (11, [setting(what), 0, 0]),
        K::RefreshWithoutPower => (12, [0; 3]),
        K::LutLength { command, bytes } => (13, [command.into(), bytes.into(), 0]),
        K::NothingToRead { command } => (14, byte(command)),
        K::ResetDuringRefresh => (15, [0; 3]),
    }
}

pub fn numbers(diagnostic: &Diagnostic) -> [u64; 5] {
    let (kind, [first, second, third]) = kind_and_fields(&diagnostic.kind);
    [diagnostic.at.get(), kind, first, second, third]
}
