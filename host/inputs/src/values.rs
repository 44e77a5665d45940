//! Values of fields: right ones, ones at the edge of their rule, and near misses.

use crate::fields::{field, Rule};
use crate::random::Random;

const DIGITS: &[u8] = b"0123456789";
const CAPITALS: &[u8] = b"ABCDEFGHIJKLMNOPQRSTUVWXYZ";
const SMALL: &[u8] = b"abcdefghijklmnopqrstuvwxyz";
const HEXADECIMAL: &[u8] = b"0123456789ABCDEF";
const PLAIN: &[u8] = b"abcdefghijklmnoprstuwzABDEHKMPRS0123456789";
const MARKS: &[u8] = b"&<>\"'=/;#!?.,-()+%@[]{}|^_`$*:\\";
const HIGH: &[u8] = b"\xA0\xA7\xB0\xB5\xBD\xC4\xD6\xDC\xDF\xE4\xF6\xFC\xFF";

/// Which marks free text prefers.
#[derive(Clone, Copy, Debug, PartialEq)]
pub enum Ink {
    /// Letters and digits with now and then a mark.
    Plain,
    /// Marks that need a reference, high bytes and blanks as often as letters.
    Mixed,
    /// Nothing but double quotes, which grow most on a fresh page.
    Quotes,
    /// A single letter, so that a row stays small.
    Tiny,
}

/// How full the values of a plan are.
#[derive(Clone, Copy, Debug)]
pub struct Fullness {
    /// The marks that free text prefers.
    pub ink: Ink,
    /// How many of a hundred free texts are as long as their field allows.
    pub longest: usize,
    /// How long a free text otherwise is at most.
    pub usual: usize,
}

/// A right value of the rule, as reading keeps it: never empty, without a trailing blank.
pub fn right(rule: Rule, fullness: Fullness, random: &mut Random) -> Vec<u8> {
    match rule {
        Rule::Version => b"027".to_vec(),
        Rule::Patch => {
            let most = *random.pick(&[9, 99]);
            random.between(1, most).to_string().into_bytes()
        }
        Rule::Identity => random.bytes(HEXADECIMAL, 32),
        Rule::Language => language(random),
        Rule::PageNumber => random.bytes(b"123456789", 1),
        Rule::Text(least, longest, breaks) => {
            let length = length(least, longest, fullness, random);
            free_text(length, breaks, fullness.ink, random)
        }
        Rule::ThreeLines => three_lines(fullness, random),
        Rule::Birth => birth(random),
        Rule::Sex => random.bytes(b"MWDX", 1),
        Rule::Card => [random.bytes(CAPITALS, 1), random.bytes(DIGITS, 9)].concat(),
        Rule::Digits(fewest, most) => {
            let count = random.between(fewest, most);
            random.bytes(DIGITS, count)
        }
        Rule::One => b"1".to_vec(),
        Rule::Moment => moment(random),
        Rule::FormCode => random.bytes(&[CAPITALS, DIGITS].concat(), 3),
        Rule::UnitCode => random.bytes(&[CAPITALS, SMALL, DIGITS].concat(), 1),
        Rule::Dose => dose(random),
        Rule::Package => package(random),
    }
}

fn length(least: usize, longest: usize, fullness: Fullness, random: &mut Random) -> usize {
    if random.chance(fullness.longest) {
        return longest;
    }
    random.between(least, fullness.usual.clamp(least, longest))
}

fn language(random: &mut Random) -> Vec<u8> {
    if random.chance(60) {
        return b"de-DE".to_vec();
    }
    [
        random.bytes(SMALL, 2),
        b"-".to_vec(),
        random.bytes(CAPITALS, 2),
    ]
    .concat()
}

fn mark(ink: Ink, random: &mut Random) -> u8 {
    match (ink, random.below(10)) {
        (Ink::Tiny, _) => b'a',
        (Ink::Quotes, 0..=8) => b'"',
        (Ink::Plain, 0..=7) | (Ink::Mixed, 0..=3) | (Ink::Quotes, _) => random.byte(PLAIN),
        (Ink::Plain, 8) | (Ink::Mixed, 4..=5) => b' ',
        (_, 9) => random.byte(HIGH),
        _ => random.byte(MARKS),
    }
}

/// Free text of just this length, with at most so many line breaks and no blank at its end.
pub fn free_text(length: usize, breaks: usize, ink: Ink, random: &mut Random) -> Vec<u8> {
    let mut text: Vec<u8> = (0..length).map(|_| mark(ink, random)).collect();
    if length > 1 && ink != Ink::Tiny && random.chance(30) {
        for _ in 0..random.between(0, breaks) {
            let place = random.below(length);
            text[place] = b'~';
        }
    }
    if text.last() == Some(&b' ') {
        text[length - 1] = random.byte(PLAIN);
    }
    text
}

fn three_lines(fullness: Fullness, random: &mut Random) -> Vec<u8> {
    let lines = random.between(1, 3);
    let mut text = Vec::new();
    for line in 0..lines {
        if line > 0 {
            text.push(b'~');
        }
        let length = length(0, 25, fullness, random);
        text.extend(free_text(length, 0, fullness.ink, random));
    }
    if text.is_empty() {
        text.push(b'a');
    }
    text
}

/// The number of days in a month of the Gregorian calendar.
pub fn days_in_month(year: usize, month: usize) -> usize {
    let leap = year % 4 == 0 && (year % 100 != 0 || year % 400 == 0);
    match month {
        2 if leap => 29,
        2 => 28,
        4 | 6 | 9 | 11 => 30,
        _ => 31,
    }
}

/// A real day from the first of January of this year on; ends of months and odd leap years come often.
fn day(first_year: usize, random: &mut Random) -> (usize, usize, usize) {
    let (year, month) = match random.chance(30) {
        true => (
            *random.pick(&[1876, 1900, 1904, 2000, 2024, 2100, 2400, 9999]),
            *random.pick(&[1, 2, 2, 12]),
        ),
        false => (random.between(first_year, 2030), random.between(1, 12)),
    };
    let last = days_in_month(year, month);
    let date = match random.chance(40) {
        true => last,
        false => random.between(1, last),
    };
    (year, month, date)
}

/// A birth date: in about a third of all a year alone or a year and month, else a day.
fn birth(random: &mut Random) -> Vec<u8> {
    const EDGES: &[&str] = &[
        "18750102", "18750100", "18750000", "18751200", "99991200", "99990000",
    ];
    if random.chance(8) {
        return random.word(EDGES).as_bytes().to_vec();
    }
    let (year, month, date) = day(1876, random);
    let born = format!("{year:04}{month:02}{date:02}").into_bytes();
    match random.chance(30) {
        true => less_known(&born, random),
        false => born,
    }
}

/// The same birth date without its day, or without its month and day.
fn less_known(born: &[u8], random: &mut Random) -> Vec<u8> {
    let known = *random.pick(&[4, 6]);
    let unknown = vec![b'0'; born.len() - known];
    [&born[..known], &unknown].concat()
}

/// A birth date of the same year of which more or less is known.
pub fn otherwise_known(born: &[u8], random: &mut Random) -> Vec<u8> {
    let month = match &born[4..6] {
        b"00" => b"07",
        month => month,
    };
    let known: [&[&[u8]]; 3] = [&[b"0000"], &[month, b"00"], &[month, b"04"]];
    let forms = known.map(|rest| [&born[..4], &rest.concat()].concat());
    let others: Vec<_> = forms.into_iter().filter(|form| form != born).collect();
    random.pick(&others).clone()
}

fn moment(random: &mut Random) -> Vec<u8> {
    const EDGES: &[&str] = &[
        "0001-01-01T00:00:00",
        "9999-12-31T23:59:59",
        "1600-02-29T23:00:59",
        "0004-02-29T00:59:00",
    ];
    if random.chance(8) {
        return random.word(EDGES).as_bytes().to_vec();
    }
    let (year, month, date) = day(1, random);
    let (hour, minute, second) = (random.below(24), random.below(60), random.below(60));
    format!("{year:04}-{month:02}-{date:02}T{hour:02}:{minute:02}:{second:02}").into_bytes()
}

const DOSES: &[&str] = &[
    "1", "2", "10", "9999", "00", "0,0", "0,5", "1,25", "12,5", "1/2", "3/4", "0/1", "10/3",
    "1/02", "000", "01",
];

fn dose(random: &mut Random) -> Vec<u8> {
    random.word(DOSES).as_bytes().to_vec()
}

/// The check digit of the seven leading digits, 10 when there is none.
fn check_digit(leading: usize) -> usize {
    let digits = format!("{leading:07}").into_bytes();
    let weighted = digits.iter().zip(1..);
    let sum: usize = weighted
        .map(|(digit, weight)| usize::from(digit - b'0') * weight)
        .sum();
    sum % 11
}

/// A package number without leading zeros whose check digit is right.
fn package(random: &mut Random) -> Vec<u8> {
    let most = *random.pick(&[9, 99, 9_999, 999_999, 9_999_999, 9_999_999]);
    loop {
        let leading = random.between(1, most);
        let check = check_digit(leading);
        if check < 10 {
            return (leading * 10 + check).to_string().into_bytes();
        }
    }
}

/// A value near the edge of the rule of a field such as "P.b" or "M.m", on either side of it.
/// A name that the table does not have is taken as free text.
pub fn value_near(name: &str, random: &mut Random) -> Vec<u8> {
    let known = name
        .split_once('.')
        .and_then(|(element, letter)| field(element, letter));
    let rule = known.map_or(Rule::Text(1, 45, 0), |field| field.rule);
    near(rule, random)
}

/// A value near the edge of the rule: sometimes right, mostly just wrong.
pub fn near(rule: Rule, random: &mut Random) -> Vec<u8> {
    let usual = Fullness {
        ink: Ink::Mixed,
        longest: 20,
        usual: 12,
    };
    if random.chance(35) {
        return altered(right(rule, usual, random), random);
    }
    match rule {
        Rule::Text(least, longest, breaks) => near_text(least, longest, breaks, random),
        Rule::ThreeLines => near_three_lines(random),
        Rule::Digits(fewest, most) => near_digits(fewest, most, random),
        Rule::Identity => {
            let count = random.between(31, 33);
            random.bytes(b"0123456789ABCDEFabG", count)
        }
        Rule::Birth => near_birth(random),
        Rule::Moment => near_moment(random),
        Rule::Package => near_package(random),
        _ => random.word(listed(rule)).as_bytes().to_vec(),
    }
}

/// Near values of the rules that are told best by a list.
fn listed(rule: Rule) -> &'static [&'static str] {
    match rule {
        Rule::Version => &["027", "27", "028", "0270", " 027", "027 ", "", "O27", "026"],
        Rule::Patch => &[
            "0", "00", "7", "07", "99", "100", "007", "-1", "1a", "", " 7", "+7",
        ],
        Rule::Language => &[
            "de-DE", "de-de", "DE-DE", "de_DE", "de-D", "d-DE", "en-GB", "de-DEU", "", "de",
            "aa-ZZ",
        ],
        Rule::PageNumber => &["0", "1", "9", "10", "01", "", "a", "1 ", " 1", "-"],
        Rule::Sex => &["M", "W", "D", "X", "m", "F", "MW", "", "U", " M"],
        Rule::Card => &[
            "A123456789",
            "a123456789",
            "1123456789",
            "A12345678",
            "A1234567890",
            "AB23456789",
            "",
        ],
        Rule::One => &["1", "0", "2", "01", "11", "", "1 ", "true"],
        Rule::FormCode => &["FTA", "F1A", "123", "fta", "FT", "FTAB", "F A", "", "FT-"],
        Rule::UnitCode => &["1", "a", "Z", "-", "12", "", " ", "\u{7e}"],
        Rule::Dose => &[
            "0", "00", "0,0", "1/2", "1/0", "1/00", "0/1", ",5", "5,", "/2", "1/", "1,2/", "1.5",
            "12345", "1234", "1,23", "1,234", "-1", " 1", "1 ", "", "1/10", "1//2", "1,,2", "0/0",
            "1/2/", "a",
        ],
        _ => &["", "0", "1", "a"],
    }
}

/// A right value with one byte more, one less, or one other.
fn altered(mut value: Vec<u8>, random: &mut Random) -> Vec<u8> {
    let place = random.below(value.len());
    let other = random.byte(b"0123456789AFGZafgz~ ,/-T:\xE4\"");
    match random.below(4) {
        0 => value.insert(place, other),
        1 => drop(value.remove(place)),
        2 => value[place] = other,
        _ => {}
    }
    value
}

fn near_text(least: usize, longest: usize, breaks: usize, random: &mut Random) -> Vec<u8> {
    let length = *random.pick(&[least - 1, least, longest - 1, longest, longest, longest + 1]);
    let mut text = free_text(length, 0, Ink::Mixed, random);
    if random.chance(50) {
        let wanted = random.between(breaks, breaks + 1).min(length);
        for place in 0..wanted {
            text[place * length / wanted] = b'~';
        }
    }
    text
}

fn near_three_lines(random: &mut Random) -> Vec<u8> {
    let lines = random.between(1, 4);
    let mut text = Vec::new();
    for line in 0..lines {
        if line > 0 {
            text.push(b'~');
        }
        let length = *random.pick(&[0, 1, 24, 25, 25, 25, 26]);
        text.extend(free_text(length, 0, Ink::Mixed, random));
    }
    text
}

fn near_digits(fewest: usize, most: usize, random: &mut Random) -> Vec<u8> {
    let count = *random.pick(&[fewest - 1, fewest, most, most + 1]);
    let mut digits = random.bytes(DIGITS, count);
    if count > 0 && random.chance(30) {
        let place = random.below(count);
        digits[place] = random.byte(b"a. -,~O\xB2");
    }
    digits
}

/// Year, month and day, each at or just beyond an edge, in any combination.
fn near_day(random: &mut Random) -> (usize, usize, usize) {
    let year = match random.below(3) {
        0 => random.between(1873, 1877),
        1 => *random.pick(&[0, 1, 1900, 1904, 1951, 2000, 2023, 2100, 9999]),
        _ => random.between(0, 9999),
    };
    let month = *random.pick(&[0, 0, 0, 1, 2, 2, 4, 7, 9, 10, 11, 12, 12, 13, 20, 99]);
    let date = *random.pick(&[0, 0, 0, 0, 1, 2, 4, 10, 28, 29, 30, 31, 32, 99]);
    (year, month, date)
}

/// The edges on both sides of each rule, or any combination of year, month and day.
fn near_birth(random: &mut Random) -> Vec<u8> {
    const BIRTHS: &[&str] = &[
        // days
        "18750101",
        "18750102",
        "18741231",
        "19000229",
        "20000229",
        "19040229",
        "20230229",
        "20240229",
        "21000228",
        "19991301",
        "19990132",
        "19990431",
        "19510732",
        "19511232",
        "00010101",
        "99991231",
        "1999010",
        "199901011",
        "",
        "1999-1-1",
        // a year and month
        "18750100",
        "18751200",
        "18741200",
        "18740100",
        "18751300",
        "18741300",
        "18759900",
        "18749900",
        "19000200",
        "19510700",
        "19511200",
        "19511300",
        "19519900",
        "00010100",
        "00000100",
        "99991200",
        "99991300",
        "99999900",
        "195107",
        "1951070",
        "195107000",
        "1951070O",
        "195107 0",
        "1951-07-00",
        // a year
        "18750000",
        "18740000",
        "18760000",
        "19510000",
        "00010000",
        "00000000",
        "99990000",
        "1951",
        "1951000",
        "195100000",
        "1951000O",
        "1951 000",
        "1951-00-00",
        // a day without a month
        "18750001",
        "18750002",
        "19510001",
        "19510004",
        "19510031",
        "19510032",
        "19990001",
        "99990031",
        "00000001",
    ];
    if random.chance(50) {
        return random.word(BIRTHS).as_bytes().to_vec();
    }
    let (year, month, date) = near_day(random);
    format!("{year:04}{month:02}{date:02}").into_bytes()
}

fn near_moment(random: &mut Random) -> Vec<u8> {
    const MOMENTS: &[&str] = &[
        "0001-01-01T00:00:00",
        "0000-01-01T00:00:00",
        "9999-12-31T23:59:59",
        "2023-02-29T10:00:00",
        "2024-02-29T10:00:00",
        "1900-02-29T10:00:00",
        "2000-02-29T10:00:00",
        "2023-03-01T24:00:00",
        "2023-03-01T23:60:00",
        "2023-03-01T23:59:60",
        "2023-03-01t09:30:00",
        "2023-03-01 09:30:00",
        "2023-03-01T09:30",
        "2023-03-01T09:30:00Z",
        "2023-3-01T09:30:00",
        "2023-13-01T09:30:00",
        "2023-00-01T09:30:00",
        "2023-00-00T09:30:00",
        "2023-04-31T09:30:00",
        "2023-04-00T09:30:00",
        "20230301093000",
        "",
        "2023/03/01T09:30:00",
        "2023-03-01T09.30.00",
    ];
    if random.chance(60) {
        return random.word(MOMENTS).as_bytes().to_vec();
    }
    let (year, month, date) = near_day(random);
    format!("{year:04}-{month:02}-{date:02}T09:30:00").into_bytes()
}

fn near_package(random: &mut Random) -> Vec<u8> {
    let leading = random.between(0, 9_999_999);
    let check = check_digit(leading);
    match random.below(7) {
        0 => format!("{leading:07}{}", (check + 1) % 10),
        1 => format!("{leading:07}{check}"),
        2 => "0".repeat(random.between(1, 9)),
        3 => format!("0{leading:07}{}", check % 10),
        4 => leading.to_string(),
        5 => "2394428".to_string(),
        _ => random
            .word(&[
                "", "239442A", "-2394428", " 2394428", "02394429", "2394428 ", "19",
            ])
            .to_string(),
    }
    .into_bytes()
}

#[cfg(test)]
mod tests {
    use super::*;
    use crate::fields::FIELDS;
    use std::collections::BTreeSet;

    #[test]
    fn the_known_package_number_checks() {
        assert_eq!(check_digit(239442), 8);
    }

    #[test]
    fn right_values_are_never_empty_and_end_without_a_blank() {
        let mut random = Random::new(5);
        for ink in [Ink::Plain, Ink::Mixed, Ink::Quotes, Ink::Tiny] {
            for field in FIELDS.iter().cycle().take(FIELDS.len() * 40) {
                let fullness = Fullness {
                    ink,
                    longest: 30,
                    usual: 9,
                };
                let value = right(field.rule, fullness, &mut random);
                assert!(value.last().is_some_and(|last| *last != b' '), "{field:?}");
            }
        }
    }

    #[test]
    fn right_texts_keep_their_length_and_line_breaks() {
        let mut random = Random::new(6);
        let fullness = Fullness {
            ink: Ink::Mixed,
            longest: 30,
            usual: 30,
        };
        for _ in 0..2000 {
            let text = right(Rule::Text(2, 20, 1), fullness, &mut random);
            let breaks = text.iter().filter(|byte| **byte == b'~').count();
            assert!((2..=20).contains(&text.len()) && breaks <= 1);
        }
    }

    /// So many right values of a rule.
    fn drawn(rule: Rule, count: usize) -> Vec<String> {
        let mut random = Random::new(8);
        let fullness = Fullness {
            ink: Ink::Plain,
            longest: 0,
            usual: 3,
        };
        let values = (0..count).map(|_| right(rule, fullness, &mut random));
        values
            .map(|value| String::from_utf8(value).unwrap())
            .collect()
    }

    /// So many values near the edge of the rule of a field.
    fn drawn_near(name: &str, count: usize) -> BTreeSet<String> {
        let mut random = Random::new(9);
        let values = (0..count).map(|_| value_near(name, &mut random));
        values
            .map(|value| String::from_utf8_lossy(&value).into_owned())
            .collect()
    }

    #[test]
    fn first_and_last_days_occur() {
        let births = drawn(Rule::Birth, 4000);
        for edge in [
            "18750102", "18750000", "18750100", "20000229", "24000229", "21000228", "99990000",
            "99991200", "99991231",
        ] {
            assert!(births.contains(&edge.to_string()), "{edge}");
        }
        assert!(drawn(Rule::Moment, 3000).contains(&"9999-12-31T23:59:59".to_string()));
    }

    #[test]
    fn birth_dates_are_days_and_in_a_fair_share_less() {
        let births = drawn(Rule::Birth, 1000);
        let years = births.iter().filter(|born| born.ends_with("0000")).count();
        let months = births.iter().filter(|born| born.ends_with("00")).count() - years;
        assert!((100..300).contains(&years) && (100..300).contains(&months));
        let known = |born: &&String| !born.ends_with("00") && born.len() == 8;
        assert!(births.iter().filter(known).count() > 500);
    }

    #[test]
    fn less_is_known_of_a_birth_date_in_two_ways() {
        let mut random = Random::new(3);
        let less: BTreeSet<Vec<u8>> = (0..20)
            .map(|_| less_known(b"19510704", &mut random))
            .collect();
        assert_eq!(less, [b"19510000".to_vec(), b"19510700".to_vec()].into());
    }

    #[test]
    fn a_birth_date_is_otherwise_known_in_two_other_ways() {
        let mut random = Random::new(3);
        for (born, others) in [
            ("19511200", ["19510000", "19511204"]),
            ("19510000", ["19510700", "19510704"]),
            ("19511204", ["19510000", "19511200"]),
        ] {
            let drawn: BTreeSet<_> = (0..20)
                .map(|_| otherwise_known(born.as_bytes(), &mut random))
                .collect();
            assert_eq!(drawn, others.map(|other| other.as_bytes().to_vec()).into());
        }
    }

    #[test]
    fn near_days_join_every_edge_of_year_month_and_day() {
        let mut random = Random::new(9);
        let days: BTreeSet<_> = (0..60_000).map(|_| near_day(&mut random)).collect();
        for year in [0, 1874, 1875, 1876, 1900, 1951, 9999] {
            for month in [0, 1, 2, 12, 13, 99] {
                for date in [0, 1, 29, 31, 32] {
                    let day = (year, month, date);
                    assert!(days.contains(&day), "{day:?}");
                }
            }
        }
    }

    #[test]
    fn near_dates_lie_on_both_sides_of_each_rule() {
        let births = drawn_near("P.b", 5000);
        for edge in [
            "18750101", "18750102", "18750000", "18740000", "18750100", "18741200", "19511200",
            "19511300", "19510004", "19510732", "19000229", "19000200", "99991200", "99990000",
            "00000000",
        ] {
            assert!(births.contains(edge), "{edge}");
        }
        let moments = drawn_near("A.t", 5000);
        for unknown in ["-12-00T", "-00-00T", "-00-01T"] {
            let found = moments.iter().any(|moment| moment.contains(unknown));
            assert!(found, "{unknown}");
        }
    }

    #[test]
    fn near_texts_reach_one_above_the_longest() {
        let mut random = Random::new(7);
        let lengths: Vec<usize> = (0..300)
            .map(|_| value_near("P.g", &mut random).len())
            .collect();
        assert!([0, 1, 44, 45, 46]
            .iter()
            .all(|length| lengths.contains(length)));
    }

    #[test]
    fn leap_years_are_gregorian() {
        let februaries = [1900, 2000, 2023, 2024].map(|year| days_in_month(year, 2));
        assert_eq!(februaries, [28, 29, 28, 29]);
    }
}
