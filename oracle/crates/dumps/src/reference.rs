//! The reference of a declaration: its name, without a select.

use crate::grammar::Malformed;

const ESCAPE: u8 = b'\\';

pub fn is_number(word: &[u8]) -> bool {
    !word.is_empty() && word.iter().all(u8::is_ascii_digit)
}

/// A number, perhaps negative.
fn is_index(word: &[u8]) -> bool {
    is_number(word.strip_prefix(b"-").unwrap_or(word))
}

/// `[n]` or `[n:m]`.
fn is_select(word: &[u8]) -> bool {
    let inner = word.strip_prefix(b"[").and_then(|w| w.strip_suffix(b"]"));
    inner.is_some_and(|inner| {
        let mut indices = inner.splitn(2, |&byte| byte == b':');
        indices.all(is_index)
    })
}

/// The name in a word with nothing to cut off: an escaped one without its `\`.
fn unescaped(word: &[u8]) -> Result<&[u8], Malformed> {
    match word {
        [ESCAPE] | [] => Err(Malformed),
        [ESCAPE, name @ ..] => Ok(name),
        name => Ok(name),
    }
}

/// The name in a word that stands alone: an unescaped one loses the select that it ends in.
fn alone(word: &[u8]) -> Result<&[u8], Malformed> {
    let open = word.iter().rposition(|&byte| byte == b'[');
    match open {
        Some(open) if word[0] != ESCAPE && word.ends_with(b"]") => {
            let (name, select) = word.split_at(open);
            if name.is_empty() || !is_select(select) {
                return Err(Malformed);
            }
            Ok(name)
        }
        _ => unescaped(word),
    }
}

/// The name that the words of a reference give.
pub fn name<'a>(words: &[&'a [u8]]) -> Result<&'a [u8], Malformed> {
    match words {
        [] => Err(Malformed),
        [word] => alone(word),
        [word, select @ ..] => {
            if !is_select(&select.concat()) {
                return Err(Malformed);
            }
            unescaped(word)
        }
    }
}
