//! The words of a dump: what stands between white space, bytes 9 to 13 and 32.

pub fn is_blank(byte: u8) -> bool {
    matches!(byte, 9..=13 | 32)
}

/// The bytes that a word has outside of texts.
pub fn is_printable(byte: u8) -> bool {
    matches!(byte, 33..=126)
}

pub fn words(dump: &[u8]) -> Vec<&[u8]> {
    dump.split(|&byte| is_blank(byte))
        .filter(|word| !word.is_empty())
        .collect()
}
