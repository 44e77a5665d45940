//! References and raw values: what may stand between the quotes of an attribute, and what may not.

use crate::random::Random;
use crate::values::{free_text, Ink};

/// The bytes of an attribute as they could stand between its quotes: text, blanks of every kind,
/// references right and wrong. For tests of decoding alone.
pub fn raw_value(random: &mut Random) -> Vec<u8> {
    let mut raw = Vec::new();
    for _ in 0..random.between(0, 8) {
        raw.extend(raw_piece(random));
    }
    raw
}

fn raw_piece(random: &mut Random) -> Vec<u8> {
    const BLANKS: &[&str] = &[
        " ", "  ", "\t", "\n", "\r", "\r\n", "\n\r", "\r\r\n", "&#32;", "&#x20;",
    ];
    match random.below(8) {
        0 | 1 => free_text(3, 0, Ink::Plain, random),
        2 => random.word(BLANKS).as_bytes().to_vec(),
        3 | 4 => right_reference(random),
        5 => broken_number(random),
        6 => broken_reference(random),
        _ => random.bytes(b"&#x;<>\"'a1F ~\xA0\xFF", 3),
    }
}

/// A reference that stands for an allowed byte.
pub fn right_reference(random: &mut Random) -> Vec<u8> {
    const NAMED: &[&str] = &["&amp;", "&lt;", "&gt;", "&quot;", "&apos;"];
    let high = random.chance(30);
    let number = if high {
        random.between(160, 255)
    } else {
        random.between(32, 126)
    };
    let zeros = "0".repeat(random.between(0, 3));
    match random.below(4) {
        0 => random.word(NAMED).to_string(),
        1 => format!("&#{zeros}{number};"),
        2 => format!("&#x{zeros}{number:x};"),
        _ => format!("&#x{zeros}{number:X};"),
    }
    .into_bytes()
}

/// A well-formed reference whose number no value may hold.
pub fn broken_number(random: &mut Random) -> Vec<u8> {
    const NUMBERS: &[&str] = &[
        "0",
        "9",
        "10",
        "13",
        "31",
        "127",
        "128",
        "159",
        "256",
        "288",
        "1000",
        "65568",
        "4294967328",
        "18446744073709551648",
        "340282366920938463463374607431768211488",
        "x0",
        "x1f",
        "x1F",
        "x7f",
        "x80",
        "x9F",
        "x100",
        "x120",
        "x10041",
        "x100000020",
        "x10000000000000020",
    ];
    format!("&#{};", random.word(NUMBERS)).into_bytes()
}

/// A reference that makes its page malformed.
pub fn broken_reference(random: &mut Random) -> Vec<u8> {
    const BROKEN: &[&str] = &[
        "&", "&;", "&#;", "&#x;", "&#X41;", "&amp", "&am;", "&ampp;", "&AMP;", "&lt ;", "& amp;",
        "&#4a;", "&#xG;", "&#x4g;", "&nbsp;", "&quo;", "&apo;", "&#-1;", "&# 65;", "&#65 ;", "&a",
        "&l", "&g;", "&q", "&#", "&#x", "&gt",
    ];
    random.word(BROKEN).as_bytes().to_vec()
}

#[cfg(test)]
mod tests {
    use super::*;

    #[test]
    fn raw_values_hold_references_of_every_sort() {
        let mut random = Random::new(9);
        let raw: Vec<u8> = (0..2000).flat_map(|_| raw_value(&mut random)).collect();
        for sort in [
            "&amp;", "&#x", "&#0", "&#;", "&#256;", "\r\n", "&nbsp;", "<",
        ] {
            let found = raw
                .windows(sort.len())
                .any(|window| window == sort.as_bytes());
            assert!(found, "{sort:?} never occurs");
        }
    }

    #[test]
    fn right_references_end_and_stand_for_one_byte() {
        let mut random = Random::new(10);
        for _ in 0..1000 {
            let reference = right_reference(&mut random);
            assert!(reference.starts_with(b"&") && reference.ends_with(b";"));
            assert_eq!(reference.iter().filter(|byte| **byte == b';').count(), 1);
        }
    }
}
