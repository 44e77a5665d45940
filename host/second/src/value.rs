//! Values: from their spelling on a page to their bytes, and back.

use crate::class::{decoded, space};
use crate::markup::NAMED;

/// A value holds a number reference outside 32 to 126 and 160 to 255.
#[derive(Clone, Copy, Debug, PartialEq, Eq)]
pub struct BadNumber;

/// Reads a value as it stands between its quotes: references are resolved, the pair
/// 13 10 and a single 9, 10 or 13 read as one space, and trailing spaces are cut.
pub fn read_value(raw: &[u8]) -> Result<Vec<u8>, BadNumber> {
    let mut value = Vec::new();
    let mut rest = raw;
    while let Some(&byte) = rest.first() {
        let (read, used) = match byte {
            b'&' => reference(rest)?,
            13 if rest.get(1) == Some(&10) => (b' ', 2),
            _ if space(byte) => (b' ', 1),
            _ => (byte, 1),
        };
        value.push(read);
        rest = &rest[used..];
    }
    while value.last() == Some(&b' ') {
        value.pop();
    }
    Ok(value)
}

/// Reads the reference at the beginning: its byte and how many bytes it took.
fn reference(rest: &[u8]) -> Result<(u8, usize), BadNumber> {
    let end = rest
        .iter()
        .position(|&byte| byte == b';')
        .ok_or(BadNumber)?;
    let inside = &rest[1..=end];
    if let Some((_, byte)) = NAMED.iter().find(|(name, _)| *name == inside) {
        return Ok((*byte, end + 1));
    }
    let number = match &rest[1..end] {
        [b'#', b'x', digits @ ..] => number(digits, 16),
        [b'#', digits @ ..] => number(digits, 10),
        _ => return Err(BadNumber),
    };
    match u8::try_from(number) {
        Ok(byte) if decoded(byte) => Ok((byte, end + 1)),
        _ => Err(BadNumber),
    }
}

/// The number of a run of digits; one that is too great stays too great.
fn number(digits: &[u8], base: u32) -> u32 {
    digits.iter().fold(0, |number: u32, &byte| {
        let digit = (byte as char).to_digit(base).unwrap_or(0);
        number.saturating_mul(base).saturating_add(digit)
    })
}

/// Spells a value for a fresh page: only `&amp;`, `&lt;` and `&quot;` are used.
pub fn spell(value: &[u8]) -> Vec<u8> {
    let mut spelled = Vec::new();
    for &byte in value {
        match byte {
            b'&' => spelled.extend_from_slice(b"&amp;"),
            b'<' => spelled.extend_from_slice(b"&lt;"),
            b'"' => spelled.extend_from_slice(b"&quot;"),
            _ => spelled.push(byte),
        }
    }
    spelled
}
