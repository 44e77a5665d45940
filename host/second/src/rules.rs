//! Whether a value keeps the rule of its field: calendar, dose, package number and the rest.

use crate::class::{capital, decoded, digit, letter, small};
use crate::table::{Field, Rule};

/// Whether a present value keeps its field: decoded bytes without a trailing blank,
/// the length, the line breaks, and the field's own rule.
pub fn keeps(field: &Field, value: &[u8]) -> bool {
    value.iter().all(|&byte| decoded(byte))
        && value.last() != Some(&b' ')
        && (field.least..=field.most).contains(&value.len())
        && value.iter().filter(|&&byte| byte == b'~').count() <= field.tildes
        && follows(field.rule, value)
}

/// Whether a value follows a rule of the table.
fn follows(rule: Rule, value: &[u8]) -> bool {
    match rule {
        Rule::Text => true,
        Rule::Digits => digits(value),
        Rule::Like(shape) => like(shape, value),
        Rule::Of(marks) => value.iter().all(|byte| marks.as_bytes().contains(byte)),
        Rule::LetterOrDigit => value.iter().all(|&byte| letter(byte) || digit(byte)),
        Rule::Birthday => birthday(value),
        Rule::Stamp => stamp(value),
        Rule::Lines => value
            .split(|&byte| byte == b'~')
            .all(|line| line.len() <= 25),
        Rule::Dose => dose(value),
        Rule::Package => package(value).is_some(),
    }
}

/// Whether the value is one digit or more and nothing else.
fn digits(value: &[u8]) -> bool {
    !value.is_empty() && value.iter().all(|&byte| digit(byte))
}

/// Whether the value has the shape: `a` small, `A` capital, `9` digit, else the mark itself.
fn like(shape: &str, value: &[u8]) -> bool {
    shape.len() == value.len()
        && shape.bytes().zip(value).all(|(mark, &byte)| match mark {
            b'a' => small(byte),
            b'A' => capital(byte),
            b'9' => digit(byte),
            _ => mark == byte,
        })
}

/// The number that a short run of digits spells.
pub fn number(digits: &[u8]) -> u32 {
    digits
        .iter()
        .fold(0, |number, &byte| number * 10 + u32::from(byte - b'0'))
}

/// The days of a month of the Gregorian calendar; 0 for a month that does not exist.
fn days(year: u32, month: u32) -> u32 {
    let leap = year % 4 == 0 && (year % 100 != 0 || year % 400 == 0);
    match month {
        1 | 3 | 5 | 7 | 8 | 10 | 12 => 31,
        4 | 6 | 9 | 11 => 30,
        2 if leap => 29,
        2 => 28,
        _ => 0,
    }
}

/// Whether year, month and day are a real day of the years 0001 to 9999.
fn real_day(year: u32, month: u32, day: u32) -> bool {
    (1..=9999).contains(&year) && day >= 1 && day <= days(year, month)
}

/// P.b: eight digits, which are a real day after 18750101, or a year and month with day
/// 00, or a year with 0000. The year of such a partial date is 1875 or later.
fn birthday(value: &[u8]) -> bool {
    if !like("99999999", value) {
        return false;
    }
    let year = number(&value[..4]);
    let month = number(&value[4..6]);
    let day = number(&value[6..]);
    let full = real_day(year, month, day) && number(value) > 18_750_101;
    let year_and_month = (1..=12).contains(&month) && day == 0;
    let year_alone = month == 0 && day == 0;
    full || (year_and_month || year_alone) && year >= 1875
}

/// A.t: a real day, and a time from 00:00:00 to 23:59:59.
fn stamp(value: &[u8]) -> bool {
    like("9999-99-99T99:99:99", value)
        && real_day(
            number(&value[..4]),
            number(&value[5..7]),
            number(&value[8..10]),
        )
        && number(&value[11..13]) <= 23
        && number(&value[14..16]) <= 59
        && number(&value[17..]) <= 59
}

/// M.m, d, v, h: digits; digits, comma, digits; or digits, `/`, digits with a
/// denominator above zero.
fn dose(value: &[u8]) -> bool {
    match value.iter().position(|&byte| byte == b',' || byte == b'/') {
        None => digits(value),
        Some(at) => {
            let (first, second) = (&value[..at], &value[at + 1..]);
            let above_zero = second.iter().any(|&byte| byte != b'0');
            digits(first) && digits(second) && (value[at] == b',' || above_zero)
        }
    }
}

/// M.p: the number that 1 to 8 digits spell, if it is a package number.
pub fn package(value: &[u8]) -> Option<u32> {
    let package = (digits(value) && value.len() <= 8).then(|| number(value))?;
    package_number(package).then_some(package)
}

/// Whether a number is a package number: not zero, and of its eight digits the first
/// seven times 1 to 7 added up leave, divided by 11, the eighth.
pub fn package_number(package: u32) -> bool {
    let eight = format!("{package:08}");
    let eight = eight.as_bytes();
    let sum: u32 = (1..=7)
        .map(|weight| weight * number(&eight[weight as usize - 1..][..1]))
        .sum();
    package != 0 && eight.len() == 8 && sum % 11 == number(&eight[7..])
}
