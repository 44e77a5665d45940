//! Texts for a printed cell: near the length at which it is cut, with blanks around the places where that is done; and inputs of the program plancell.

use crate::case::{case, fitting_plan, handed_in, long_plan, usual_plan};
use crate::index::{number_text, package_plan, pages_text};
use crate::joined;
use crate::plan::Plan;
use crate::random::Random;

/// The limits of name, substance, strength and form.
pub const LIMITS: [usize; 4] = [50, 80, 15, 7];

/// The bytes of words, signs that may stand within one among them, and a byte that looks like a blank.
const LETTERS: &[u8] = b"Tab-~\0\t\xE4\xFF";
const LIKE_BLANK: u8 = 160;

/// The greatest number of eight digits.
const GREATEST: u32 = 99_999_999;

/// The limit of the cell of a field, if it may be cut.
pub fn limit(field: usize) -> Option<usize> {
    LIMITS.get(field.wrapping_sub(1)).copied()
}

/// A catalogue's text of a length near one of the limits, or none; mostly one that has blanks where the cell of the field may be cut.
pub fn catalogue(field: usize, random: &mut Random) -> Vec<u8> {
    if let Some(limit) = limit(field).filter(|_| random.chance(70)) {
        return cell_text(limit, random);
    }
    let limit = *random.pick(&[0, 7, 15, 50, 80]);
    let long = if random.chance(10) { 70_000 } else { 200 };
    let length = *random.pick(&[0, 1, limit, limit + 1, limit + 9, long]);
    words(length, random)
}

/// As many bytes as asked for, with blanks among them.
fn words(length: usize, random: &mut Random) -> Vec<u8> {
    random.bytes(b"Katalog \0\xE4\xFF", length)
}

/// An input of plancell: the numbers of a row and a field, which of three, a catalogue's text, and pages, with zero bytes between them.
pub fn asking(numbers: [&[u8]; 3], catalogue: &[u8], pages: &[u8]) -> Vec<u8> {
    let [row, field, which] = numbers;
    [row, field, which, catalogue, pages].join(&0)
}

/// The input of plancell of this seed: mostly a right question, and the sheets of a plan.
pub fn cell_input(seed: u64) -> Vec<u8> {
    let mut random = Random::new(seed ^ 0xCE77);
    let plan = fitting_plan(some_plan, &mut random);
    let numbers = some_cell(&plan, &mut random);
    let mut texts = numbers.map(|number| number.to_string().into_bytes());
    if random.chance(20) {
        let place = random.below(3);
        texts[place] = number_text(numbers[place], &mut random);
    }
    let catalogue = catalogue_text(numbers[1] as usize, &mut random);
    let pages = match random.chance(8) {
        true => case(seed).pages,
        false => handed_in(&plan, &mut random),
    };
    let pages = match random.chance(40) {
        true => pages_text(&pages, &mut random),
        false => joined(&pages),
    };
    let texts = texts.each_ref().map(Vec::as_slice);
    match random.below(60) {
        0 => pages,
        1 => [texts.join(&0), pages].join(&0),
        2 => [texts.join(&0), catalogue].join(&0),
        3 => [texts.concat(), catalogue, pages].concat(),
        _ => asking(texts, &catalogue, &pages),
    }
}

/// A plan with medications mostly, of which many show long texts or none of their own.
fn some_plan(random: &mut Random) -> Plan {
    match random.below(10) {
        0..=3 => usual_plan(random),
        4..=7 => long_plan(random),
        _ => package_plan(random),
    }
}

/// A row, a field and which of three: mostly a cell of a medication.
fn some_cell(plan: &Plan, random: &mut Random) -> [u32; 3] {
    let rows = (1..).zip(&plan.rows);
    let medications = rows.filter(|(_, row)| row.name == "M");
    let mut rows: Vec<u32> = medications.map(|(row, _)| row).collect();
    if rows.is_empty() || random.chance(5) {
        let count = plan.rows.len() as u32;
        rows = vec![0, 1, count, count + 1, 256, 257, GREATEST];
    }
    let row = *random.pick(&rows);
    let field = match random.chance(95) {
        true => *random.pick(&[1, 1, 2, 2, 3, 3, 4, 4, 5, 6, 6, 7, 7, 8, 9]),
        false => *random.pick(&[0, 10, 11, 257, GREATEST]),
    };
    let which = match random.chance(95) {
        true => random.between(1, 3) as u32,
        false => *random.pick(&[0, 4, 257, GREATEST]),
    };
    [row, field, which]
}

/// A catalogue's text as plancell takes it, mostly without a zero byte; at times one that is not cut, or about as long as it may be, or longer.
fn catalogue_text(field: usize, random: &mut Random) -> Vec<u8> {
    let mut text = match random.below(12) {
        0 => {
            let length = *random.pick(&[999, 1_000, 1_000, 1_001, 1_002, 2_000]);
            words(length, random)
        }
        1..=3 => {
            let length = random.between(0, limit(field).unwrap_or(7));
            words(length, random)
        }
        _ => catalogue(field, random),
    };
    if random.chance(98) {
        let zeros = text.iter_mut().filter(|byte| **byte == 0);
        zeros.for_each(|byte| *byte = b'-');
    }
    text
}

/// A text for a cell with this limit, as long as that or longer.
pub fn cell_text(limit: usize, random: &mut Random) -> Vec<u8> {
    let more = *random.pick(&[0, 1, 1, 2, 9, 100]);
    let mut text = random.bytes(LETTERS, limit + more);
    let mixed = random.chance(15);
    for place in blanks(limit, random) {
        let like = mixed && random.chance(60);
        if let Some(byte) = text.get_mut(place) {
            *byte = if like { LIKE_BLANK } else { b' ' };
        }
    }
    text
}

/// The places of blanks: mostly one or two near the end of what is shown, at times the first, many, or none.
fn blanks(limit: usize, random: &mut Random) -> Vec<usize> {
    let place = random.between(limit.saturating_sub(15), limit - 2);
    match random.below(10) {
        0 => Vec::new(),
        1 => vec![0],
        2 => vec![0, place],
        3 => vec![place, limit - 3],
        4 | 5 => vec![place, place + 1],
        6 => (0..2 * limit).filter(|_| random.chance(30)).collect(),
        7 => (0..2 * limit).filter(|_| random.chance(95)).collect(),
        _ => vec![place],
    }
}

#[cfg(test)]
mod tests {
    use super::*;
    use std::collections::BTreeSet;

    /// Texts for one limit.
    fn texts(limit: usize) -> Vec<Vec<u8>> {
        let mut random = Random::new(limit as u64);
        (0..4_000).map(|_| cell_text(limit, &mut random)).collect()
    }

    #[test]
    fn texts_are_of_each_length_around_the_limit() {
        for limit in LIMITS {
            let lengths: BTreeSet<usize> = texts(limit).iter().map(Vec::len).collect();
            let wanted = [limit, limit + 1, limit + 2, limit + 9, limit + 100];
            assert!(lengths.is_superset(&wanted.into()), "{limit}: {lengths:?}");
        }
    }

    #[test]
    fn the_last_blank_of_what_may_be_shown_is_at_each_place_and_nowhere() {
        for limit in LIMITS {
            let mut texts = texts(limit);
            texts.retain(|text| text.len() > limit);
            let last = |text: &Vec<u8>| text[..limit - 3].iter().rposition(|byte| *byte == b' ');
            let lasts: BTreeSet<Option<usize>> = texts.iter().map(last).collect();
            let places = limit.saturating_sub(15)..=limit - 4;
            let wanted = places.map(Some).chain([None, Some(0)]);
            assert!(lasts.is_superset(&wanted.collect()), "{limit}: {lasts:?}");
            let twice =
                |text: &&Vec<u8>| last(text).is_some_and(|at| at > 0 && text[at - 1] == b' ');
            assert!(texts.iter().filter(twice).count() > 100, "{limit}");
            let like = |text: &&Vec<u8>| text[..limit - 3].contains(&LIKE_BLANK);
            assert!(texts.iter().filter(like).count() > 100, "{limit}");
        }
    }

    /// What an input of plancell holds before its pages, if it has that many zero bytes.
    fn asked(input: &[u8]) -> Option<[Vec<u8>; 4]> {
        let parts: Vec<&[u8]> = input.splitn(5, |byte| *byte == 0).collect();
        let [row, field, which, catalogue, _] = parts[..] else {
            return None;
        };
        Some([row, field, which, catalogue].map(<[u8]>::to_vec))
    }

    #[test]
    fn one_seed_gives_one_input() {
        assert!((0..300).all(|seed| cell_input(seed) == cell_input(seed)));
    }

    #[test]
    fn parts_of_an_input_have_zero_bytes_between_them() {
        let numbers: [&[u8]; 3] = [b"2", b"03", b"1"];
        assert_eq!(
            asking(numbers, b"Kat", b"<MP/>"),
            b"2\x0003\x001\0Kat\0<MP/>"
        );
        assert_eq!(asking([b""; 3], b"", b""), [0; 4]);
    }

    #[test]
    fn every_cell_is_asked_for_and_numbers_of_every_sort_stand_in_each_place() {
        let all: Vec<[Vec<u8>; 4]> = (0..4_000)
            .filter_map(|seed| asked(&cell_input(seed)))
            .collect();
        assert!(all.len() > 3_500, "{}", all.len());
        let cells: BTreeSet<(&[u8], &[u8])> =
            all.iter().map(|it| (&it[1][..], &it[2][..])).collect();
        for (field, which) in
            (b'1'..=b'9').flat_map(|field| (b'1'..=b'3').map(move |which| (field, which)))
        {
            assert!(
                cells.contains(&(&[field][..], &[which][..])),
                "{field} {which}"
            );
        }
        for place in 0..3 {
            let texts: BTreeSet<&[u8]> = all.iter().map(|it| &it[place][..]).collect();
            for text in ["", "0", "1", "99999999"] {
                assert!(texts.contains(text.as_bytes()), "{place}: {text:?}");
            }
            let digits = texts
                .iter()
                .filter(|text| text.iter().all(u8::is_ascii_digit));
            let counts: BTreeSet<usize> = digits.map(|text| text.len()).collect();
            assert!([1, 2, 8, 9].iter().all(|count| counts.contains(count)));
            assert!(texts.iter().any(|text| text.starts_with(b" ")), "{place}");
            assert!(texts.iter().any(|text| text.ends_with(b"a")), "{place}");
        }
        let rows: BTreeSet<&[u8]> = all.iter().map(|it| &it[0][..]).collect();
        assert!(rows.len() > 100, "{}", rows.len());
    }

    #[test]
    fn catalogues_are_of_each_length_around_the_longest() {
        let inputs = (0..4_000).map(cell_input);
        let lengths: BTreeSet<usize> = inputs
            .filter_map(|input| asked(&input).map(|it| it[3].len()))
            .collect();
        for length in [
            0, 1, 7, 8, 15, 16, 50, 51, 80, 81, 999, 1_000, 1_001, 1_002, 2_000,
        ] {
            assert!(lengths.contains(&length), "{length}");
        }
    }
}
