//! A stand-in for the crate `cesu8`, which is not to be had: one function, as the crate calls it,
//! written from the text rule of the project's rules (docs/DIFFERENCES.md says what follows).
//! Text is a run of 01..7F; C0 80; C2..DF 80..BF; three bytes of shortest form without surrogates;
//! a pair ED A0..AF 80..BF ED B0..BF 80..BF. All else is refused, and the crate then keeps the bytes.

use std::borrow::Cow;
use std::fmt;

#[derive(Debug, Clone, Copy, PartialEq, Eq)]
pub struct Cesu8DecodingError;

impl fmt::Display for Cesu8DecodingError {
    fn fmt(&self, f: &mut fmt::Formatter<'_>) -> fmt::Result {
        write!(f, "not a text of modified UTF-8")
    }
}

impl std::error::Error for Cesu8DecodingError {}

fn tail(b: Option<&u8>) -> Option<u32> {
    match b {
        Some(&b) if (0x80..=0xBF).contains(&b) => Some(u32::from(b & 0x3F)),
        _ => None,
    }
}

// The code point at the front of `s` and its length in bytes.
fn point(s: &[u8]) -> Option<(u32, usize)> {
    let first = u32::from(*s.first()?);
    match first {
        0x01..=0x7F => Some((first, 1)),
        0xC0 if s.get(1) == Some(&0x80) => Some((0, 2)),
        0xC2..=0xDF => Some((((first & 0x1F) << 6) | tail(s.get(1))?, 2)),
        0xE0..=0xEF => {
            let c = ((first & 0x0F) << 12) | (tail(s.get(1))? << 6) | tail(s.get(2))?;
            match c {
                0..=0x7FF => None,
                0xD800..=0xDBFF => {
                    if s.get(3) != Some(&0xED) {
                        return None;
                    }
                    let d = 0xD000 | (tail(s.get(4))? << 6) | tail(s.get(5))?;
                    if !(0xDC00..=0xDFFF).contains(&d) {
                        return None;
                    }
                    Some((0x10000 + ((c - 0xD800) << 10) + (d - 0xDC00), 6))
                }
                0xDC00..=0xDFFF => None,
                _ => Some((c, 3)),
            }
        }
        _ => None,
    }
}

/// The text that these bytes write in modified UTF-8; borrowed where both forms have the same bytes.
pub fn from_java_cesu8(bytes: &[u8]) -> Result<Cow<'_, str>, Cesu8DecodingError> {
    let mut at = 0;
    let mut same = true;
    let mut text = String::new();
    while at < bytes.len() {
        // Most texts are ASCII throughout: nothing is built for them.
        let (c, n) = match bytes[at] {
            b @ 0x01..=0x7F => (u32::from(b), 1),
            _ => point(&bytes[at..]).ok_or(Cesu8DecodingError)?,
        };
        if same && (c == 0 || n == 6) {
            same = false;
            text.push_str(std::str::from_utf8(&bytes[..at]).map_err(|_| Cesu8DecodingError)?);
        }
        if !same {
            text.push(char::from_u32(c).ok_or(Cesu8DecodingError)?);
        }
        at += n;
    }
    if same {
        return std::str::from_utf8(bytes).map(Cow::Borrowed).map_err(|_| Cesu8DecodingError);
    }
    Ok(Cow::Owned(text))
}
