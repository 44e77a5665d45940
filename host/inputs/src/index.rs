//! What is asked of an index of package numbers: rows made by hand with right and wrong indexes of them, sheets with many package numbers, and inputs of
//! the program planfind.

use std::collections::BTreeMap;

use crate::case::{case, fitting_plan, handed_in};
use crate::fields::Rule;
use crate::joined;
use crate::numbers::{any_number, RECORD};
use crate::plan::{row, Element, Plan, Shape, Value};
use crate::random::Random;
use crate::values::{right, Fullness, Ink};

/// The most rows of a plan, and the kind of a row that its package number counts for.
const MOST_ROWS: usize = 256;
const MEDICATION: u32 = 2;

/// How many questions are asked of one index.
const QUESTIONS: usize = 6;

/// Rows and an index, with all that the calls lend, and what is asked of both.
#[derive(Clone, Debug, PartialEq)]
pub struct Asked {
    /// How the rows are lent and counted, what the index is, and how that is lent and counted.
    pub what: [&'static str; 3],
    /// The rows lent, a record behind the other, and how many count.
    pub rows: Vec<u32>,
    pub count: u32,
    /// The pairs lent, number and row, one behind the other, and how many are the index.
    pub index: Vec<u32>,
    pub length: u32,
    /// The numbers lent when an index of these rows is built: two for a pair.
    pub room: usize,
    /// A package number and k, for each question.
    pub questions: Vec<[u32; 2]>,
}

/// Sheets of a plan with many package numbers, and numbers to look for.
#[derive(Clone, Debug, PartialEq)]
pub struct Sheets {
    pub pages: Vec<Vec<u8>>,
    /// The index that reading must give, where the generator knows it: pairs of number and row.
    pub meant: Option<Vec<[u32; 2]>>,
    pub numbers: Vec<u32>,
}

/// The rows and the index of this seed.
pub fn asked(seed: u64) -> Asked {
    let mut random = Random::new(seed ^ 0x1DE8);
    let mut asked = Asked {
        what: ["as they are", "right", "as it is"],
        rows: records(&mut random),
        count: 0,
        index: Vec::new(),
        length: 0,
        room: *random.pick(&[512, 512, 512, 512, 513, 600, 511, 510, 0]),
        questions: Vec::new(),
    };
    asked.count = asked.held().len() as u32;
    if random.chance(35) {
        let (what, harm) = *random.pick(ROWS);
        asked.what[0] = what;
        harm(&mut asked, &mut random);
    }
    let mut pairs = index_of(&asked.counted());
    if random.chance(35) {
        let (what, harm) = *random.pick(PAIRS);
        asked.what[1] = what;
        harm(&mut pairs, &asked.counted(), &mut random);
    }
    asked.length = pairs.len() as u32;
    asked.index = pairs.concat();
    if random.chance(35) {
        let (what, harm) = *random.pick(LENGTHS);
        asked.what[2] = what;
        harm(&mut asked, &mut random);
    }
    let held = asked.held();
    let counted = asked.counted();
    let question = |_| question(&held, &counted, &mut random);
    asked.questions = (0..QUESTIONS).map(question).collect();
    asked
}

/// The sheets of this seed.
pub fn sheets(seed: u64) -> Sheets {
    let mut random = Random::new(seed ^ 0x5EE7);
    if random.chance(15) {
        let numbers = (0..QUESTIONS).map(|_| package(&mut random)).collect();
        return Sheets {
            pages: case(seed).pages,
            meant: None,
            numbers,
        };
    }
    let plan = fitting_plan(package_plan, &mut random);
    let held: Vec<[u32; 2]> = plan.rows.iter().map(held_by).collect();
    Sheets {
        pages: handed_in(&plan, &mut random),
        meant: (held.len() <= MOST_ROWS).then(|| index_of(&held)),
        numbers: (0..QUESTIONS)
            .map(|_| question(&held, &held, &mut random)[0])
            .collect(),
    }
}

/// An input of planfind: mostly a number, a zero byte, and the sheets of this seed.
pub fn find_input(seed: u64) -> Vec<u8> {
    let mut random = Random::new(seed ^ 0xF19D);
    let Sheets { pages, numbers, .. } = sheets(seed);
    let number = number_text(*random.pick(&numbers), &mut random);
    let pages = pages_text(&pages, &mut random);
    match random.below(40) {
        0 => number,
        1 => pages,
        2 => [number, pages].concat(),
        _ => [number, pages].join(&0),
    }
}

/// Pages as planfind and plancell take them behind what they are asked: mostly these, at times nine full ones, or something behind them.
pub fn pages_text(pages: &[Vec<u8>], random: &mut Random) -> Vec<u8> {
    let mut pages = match random.below(12) {
        0 | 1 => joined(&nine_full(random)),
        _ => joined(pages),
    };
    match random.below(10) {
        0 => pages.push(*random.pick(b"\0 <")),
        1 => pages.extend(vec![*random.pick(b"\0 <"); random.between(2, 300)]),
        2 => pages.extend(b" \0"),
        _ => {}
    }
    pages
}

/// A number as planfind and plancell take it, at times with zeros before it, or as they do not.
pub fn number_text(number: u32, random: &mut Random) -> Vec<u8> {
    let text = match random.below(30) {
        0 => String::new(),
        1 => format!("{number:09}"),
        2 => format!("{number}0"),
        3 => format!(
            "{}{number}",
            random.word(&[" ", "+", "-", "\n", "a", "00", "0x"])
        ),
        4 => format!(
            "{number}{}",
            random.word(&[" ", "\n", "a", "/", ":", ",", "."])
        ),
        5..=8 => format!("{number:08}"),
        9 | 10 => format!("0{number}"),
        11 => "0".repeat(random.between(1, 9)),
        _ => number.to_string(),
    };
    text.into_bytes()
}

/// Nine sheets of a plan with package numbers, each filled up with blanks to 1,400 bytes: 12,608 bytes with the zero bytes between them.
pub fn nine_full(random: &mut Random) -> Vec<Vec<u8>> {
    let number = package(random);
    let page = |a: usize| {
        let rows = format!("<M p='{number}'/>").repeat(random.between(0, 3));
        let mut page = format!(
            "<MP v='027' U='00112233445566778899AABBCCDDEEFF' a='{a}' z='9'><P g='Ida' f='Kern' b='19510704'/>\
             <A n='Praxis Holm' t='2023-03-01T09:30:00'/><S>{rows}<M p='17'/></S></MP>"
        )
        .into_bytes();
        page.resize(1_400, b' ');
        page
    };
    (1..=9).map(page).collect()
}

impl Asked {
    /// The kind and the package number of each whole record that is lent.
    fn held(&self) -> Vec<[u32; 2]> {
        let records = self.rows.chunks_exact(RECORD);
        records.map(|record| [record[0], record[1]]).collect()
    }

    /// Those of the rows that count, as far as they are lent.
    fn counted(&self) -> Vec<[u32; 2]> {
        let mut held = self.held();
        held.truncate(self.count as usize);
        held
    }

    /// The whole pairs that are lent.
    fn pairs(&self) -> u32 {
        self.index.len() as u32 / 2
    }
}

/// The index of rows with these kinds and package numbers.
fn index_of(rows: &[[u32; 2]]) -> Vec<[u32; 2]> {
    let mut places: BTreeMap<u32, Vec<u32>> = BTreeMap::new();
    for (place, [kind, number]) in (1..).zip(rows) {
        if *kind == MEDICATION && *number > 0 {
            places.entry(*number).or_default().push(place);
        }
    }
    let pairs = places
        .into_iter()
        .flat_map(|(number, rows)| rows.into_iter().map(move |row| [number, row]));
    pairs.collect()
}

/// A package number whose check digit is right.
fn package(random: &mut Random) -> u32 {
    let usual = Fullness {
        ink: Ink::Plain,
        longest: 0,
        usual: 1,
    };
    let digits = String::from_utf8(right(Rule::Package, usual, random)).unwrap_or_default();
    digits.parse().unwrap_or(17)
}

/// A number that a row made by hand may hold, near another one at times.
fn any_package(known: &[u32], random: &mut Random) -> u32 {
    let near = known.last().copied().unwrap_or(17);
    match random.below(10) {
        0 => *random.pick(&[
            1,
            1,
            2,
            255,
            256,
            u32::MAX,
            u32::MAX - 1,
            1 << 31,
            99_999_999,
        ]),
        1 => near.wrapping_add(1),
        2 => near.wrapping_sub(1),
        3 => near ^ (1 << random.below(32)),
        4 => random.below(12) as u32,
        5 => random.number() as u32,
        _ => package(random),
    }
}

/// The package numbers of so many rows: few or many different ones, in any order, so that equal ones stand together or apart.
fn some_numbers(
    count: usize,
    make: impl Fn(&[u32], &mut Random) -> u32,
    random: &mut Random,
) -> Vec<u32> {
    let mut different = Vec::new();
    for _ in 0..*random.pick(&[1, 2, 3, 8, 40, 300]) {
        different.push(make(&different, random));
    }
    let mut numbers: Vec<u32> = (0..count).map(|_| *random.pick(&different)).collect();
    match random.below(6) {
        0 => numbers.sort(),
        1 => numbers.sort_by(|one, other| other.cmp(one)),
        _ => {}
    }
    numbers
}

/// How many rows there are.
fn some_count(random: &mut Random) -> usize {
    match random.below(20) {
        0 => 0,
        1 | 2 => 1,
        3..=5 => random.between(2, 4),
        6..=12 => random.between(5, 20),
        13..=15 => random.between(21, 100),
        16 => random.between(200, 255),
        _ => MOST_ROWS,
    }
}

/// Records of rows of any kind, each with a package number or with 0, and any numbers behind it.
fn records(random: &mut Random) -> Vec<u32> {
    let count = some_count(random);
    let numbers = some_numbers(count, any_package, random);
    let [medications, numbered] = [0; 2].map(|_| *random.pick(&[100, 90, 60]));
    let mut rows = Vec::new();
    for number in numbers {
        let record = rows.len();
        rows.extend((0..RECORD).map(|_| any_number(random)));
        rows[record] = match random.chance(medications) {
            true => MEDICATION,
            false => *random.pick(&[1, 3, 4, 0, 5, 77, 258, 1 << 31 | 2, u32::MAX]),
        };
        rows[record + 1] = if random.chance(numbered) { number } else { 0 };
    }
    rows
}

/// How rows may be lent and counted.
#[allow(clippy::type_complexity)]
const ROWS: &[(&str, fn(&mut Asked, &mut Random))] = &[
    ("fewer count", |asked, random| {
        asked.count = random.below(asked.count as usize + 1) as u32;
    }),
    ("part of a row more", |asked, random| {
        let more = random.between(1, RECORD - 1);
        asked.rows.extend(vec![MEDICATION; more]);
    }),
    ("rows beyond the count", |asked, random| {
        for _ in 0..random.between(1, 4) {
            asked.rows.extend(vec![MEDICATION; RECORD]);
        }
    }),
    ("more count than lent", |asked, random| {
        let lent = asked.count;
        asked.count = *random.pick(&[lent + 1, lent + 1, 256, 257, 1 << 31, u32::MAX, 89_478_486]);
    }),
    ("a number too few", |asked, _| {
        asked.rows.pop();
    }),
    ("more than 256", |asked, random| {
        let count = *random.pick(&[256, 257, 257, 257, 300]);
        while asked.held().len() < count {
            let record = match asked.rows.first_chunk::<RECORD>() {
                Some(first) => *first,
                None => [MEDICATION; RECORD],
            };
            asked.rows.extend(record);
        }
        asked.count = count as u32;
    }),
];

/// What may be done to the index of rows. At times it does no harm.
#[allow(clippy::type_complexity)]
const PAIRS: &[(&str, fn(&mut Vec<[u32; 2]>, &[[u32; 2]], &mut Random))] = &[
    ("stale", stale),
    ("stale", stale),
    ("stale", stale),
    ("missing", |pairs, _, random| {
        if !pairs.is_empty() {
            pairs.remove(random.below(pairs.len()));
        }
    }),
    ("one too many", |pairs, rows, random| {
        let near = some_pair(pairs, random).map_or(17, |place| pairs[place][0]);
        let number = *random.pick(&[near, near, near.wrapping_add(1), 1, 99_999_999, u32::MAX]);
        let row = random.below(rows.len() + 2) as u32;
        insert(pairs, [number, row]);
    }),
    ("twice", |pairs, _, random| {
        if let Some(place) = some_pair(pairs, random) {
            pairs.insert(place, pairs[place]);
        }
    }),
    ("twice for another", |pairs, _, random| {
        if let Some(place) = some_pair(pairs, random) {
            let other = random.below(pairs.len());
            pairs[place] = pairs[other];
        }
    }),
    ("exchanged", |pairs, _, random| {
        if let Some(place) = some_pair(pairs, random) {
            let other = match random.chance(60) {
                true => (place + 1) % pairs.len(),
                false => random.below(pairs.len()),
            };
            pairs.swap(place, other);
        }
    }),
    ("equal ones by row reversed", |pairs, _, random| {
        let all = random.chance(30);
        let number = some_pair(pairs, random).map(|place| pairs[place][0]);
        for run in pairs.chunk_by_mut(|one, other| one[0] == other[0]) {
            if all || Some(run[0][0]) == number {
                run.reverse();
            }
        }
    }),
    ("falling", |pairs, _, _| pairs.reverse()),
    ("by row", |pairs, _, _| pairs.sort_by_key(|pair| pair[1])),
    ("another number", |pairs, _, random| {
        if let Some(place) = some_pair(pairs, random) {
            let number = pairs[place][0];
            let other = random.pick(&*pairs)[0];
            let one_bit = number ^ (1 << random.below(32));
            pairs[place][0] =
                *random.pick(&[number.wrapping_add(1), number - 1, one_bit, other, 0]);
        }
    }),
    ("another row", |pairs, rows, random| {
        if let Some(place) = some_pair(pairs, random) {
            let (row, count) = (pairs[place][1], rows.len() as u32);
            let any = random.below(rows.len()) as u32 + 1;
            let far = [0, count + 1, 257, row + 256, row + (1 << 16), u32::MAX];
            let far = *random.pick(&far);
            pairs[place][1] = *random.pick(&[row + 1, row - 1, any, far, far]);
        }
    }),
    ("a row of another kind", |pairs, rows, random| {
        let rows = (1..).zip(rows);
        let other = rows.filter(|(_, [kind, number])| *kind != MEDICATION && *number > 0);
        let other: Vec<[u32; 2]> = other.map(|(row, [_, number])| [*number, row]).collect();
        if !other.is_empty() {
            insert(pairs, *random.pick(&other));
        }
    }),
    ("a row without a number", |pairs, rows, random| {
        let rows = (1..).zip(rows);
        let other = rows.filter(|(_, [_, number])| *number == 0);
        let mut other: Vec<[u32; 2]> = other.map(|(row, _)| [0, row]).collect();
        other.push([0, 0]);
        insert(pairs, *random.pick(&other));
    }),
    ("rows from 0", |pairs, _, _| {
        pairs.iter_mut().for_each(|pair| pair[1] -= 1);
    }),
    ("row before number", |pairs, _, _| {
        pairs.iter_mut().for_each(|pair| pair.reverse());
    }),
    ("of other rows", |pairs, _, random| {
        let other = records(random);
        let records = other.chunks_exact(RECORD);
        let rows: Vec<[u32; 2]> = records.map(|record| [record[0], record[1]]).collect();
        *pairs = index_of(&rows);
    }),
    ("empty", |pairs, _, _| pairs.clear()),
];

/// The place of some pair, if there is one.
fn some_pair(pairs: &[[u32; 2]], random: &mut Random) -> Option<usize> {
    (!pairs.is_empty()).then(|| random.below(pairs.len()))
}

/// Puts a pair where it belongs by number and row.
fn insert(pairs: &mut Vec<[u32; 2]>, pair: [u32; 2]) {
    let place = pairs.iter().take_while(|other| **other < pair).count();
    pairs.insert(place, pair);
}

/// The index of rows of which one was changed, added or taken away, or two exchanged.
fn stale(pairs: &mut Vec<[u32; 2]>, rows: &[[u32; 2]], random: &mut Random) {
    let mut before = rows.to_vec();
    if before.is_empty() {
        return *pairs = vec![[17, 1]];
    }
    let place = random.below(before.len());
    let other = random.below(before.len());
    match random.below(7) {
        0 => before[place][1] = before[other][1],
        1 => before[place][1] = before[place][1].wrapping_add(1),
        2 => before[place][1] = 0,
        3 => before[place][0] = *random.pick(&[1, 2, 3, 4, 0]),
        4 => before.swap(place, other),
        5 => drop(before.remove(place)),
        _ => before.insert(place, before[other]),
    }
    *pairs = index_of(&before);
}

/// How an index may be lent and counted.
#[allow(clippy::type_complexity)]
const LENGTHS: &[(&str, fn(&mut Asked, &mut Random))] = &[
    ("room behind it", |asked, random| {
        let filling = *random.pick(&[0, 1, 17, u32::MAX]);
        let more = *random.pick(&[1, 2, 3, 8, 512]);
        asked.index.extend(vec![filling; more]);
    }),
    ("room for 256 pairs", |asked, random| {
        let filling = *random.pick(&[0, 1, 17, u32::MAX]);
        asked.index.resize(512.max(asked.index.len()), filling);
    }),
    ("a pair of it behind it", |asked, _| {
        if let Some(last) = asked.index.last_chunk::<2>().copied() {
            asked.index.extend(last);
        }
    }),
    ("shorter than lent", |asked, random| {
        asked.length = random.below(asked.length as usize + 1) as u32;
    }),
    ("one shorter than lent", |asked, _| {
        asked.length = asked.length.saturating_sub(1);
    }),
    ("longer, and lent", |asked, random| {
        let [number, row] = *asked.index.last_chunk().unwrap_or(&[17, 1]);
        let more = *random.pick(&[
            [0; 2],
            [number, row.wrapping_add(1)],
            [u32::MAX; 2],
            [number.wrapping_add(1), 256],
        ]);
        asked.index.extend(more);
        asked.length += 1;
    }),
    ("above 256, and lent", |asked, random| {
        let filling = *random.pick(&[0, 1, 17, u32::MAX]);
        let pairs = *random.pick(&[257, 257, 300]);
        asked.index.resize(2 * pairs, filling);
        asked.length = pairs as u32;
    }),
    ("longer than lent", |asked, random| {
        let lent = asked.pairs();
        asked.length = *random.pick(&[lent + 1, lent + 1, 1 << 31 | lent, 1 << 31, u32::MAX]);
    }),
    ("a number too few", |asked, _| {
        asked.index.pop();
    }),
];

/// A package number and k: of a number that counted rows hold, or of one near it, or of one that only other rows hold.
fn question(held: &[[u32; 2]], counted: &[[u32; 2]], random: &mut Random) -> [u32; 2] {
    let index = index_of(counted);
    let some = some_pair(&index, random).map(|place| index[place][0]);
    let other = match held.is_empty() {
        true => 17,
        false => random.pick(held)[1],
    };
    let number = match (random.below(16), some) {
        (0, _) => 0,
        (1, _) => u32::MAX,
        (2, _) => other,
        (3, _) => random.number() as u32,
        (4, Some(number)) => number.wrapping_add(1),
        (5, Some(number)) => number - 1,
        (_, Some(number)) => number,
        _ => package(random),
    };
    let count = index.iter().filter(|pair| pair[0] == number).count() as u32;
    let any = random.below(count as usize + 1) as u32;
    let k = *random.pick(&[0, 1, 1, 2, count, count, any, any, count + 1, 256, u32::MAX]);
    [number, k]
}

/// What a row of a plan holds: its kind, and its package number or 0.
fn held_by(row: &Element) -> [u32; 2] {
    let digits = row.meant("p").map(|digits| String::from_utf8_lossy(digits));
    let number = digits.and_then(|digits| digits.parse().ok()).unwrap_or(0);
    match row.name.as_str() {
        "M" => [MEDICATION, number],
        _ => [0, 0],
    }
}

/// A plan whose rows are mostly medications with package numbers, at times all of them.
pub(crate) fn package_plan(random: &mut Random) -> Plan {
    let fullness = Fullness {
        ink: Ink::Plain,
        longest: 0,
        usual: 4,
    };
    let shape = Shape {
        rows: 0,
        optional: *random.pick(&[2, 2, 10]),
        head: fullness,
        row: fullness,
    };
    let mut plan = Plan::random(shape, random);
    let count = match random.below(20) {
        0 => MOST_ROWS + 1,
        _ => some_count(random),
    };
    let medications = *random.pick(&[100, 100, 80, 50]);
    for number in some_numbers(count, |_, random| package(random), random) {
        let mut medication = Element::new("M");
        if random.chance(medications) {
            medication.set("p", Value::Meant(number.to_string().into_bytes()));
        } else {
            medication = row(shape, random);
        }
        plan.rows.push(medication);
    }
    plan
}

#[cfg(test)]
mod tests {
    use super::*;
    use std::collections::BTreeSet;

    #[test]
    fn one_seed_gives_one_index_and_one_set_of_sheets() {
        for seed in 0..100 {
            assert_eq!(asked(seed), asked(seed));
            assert_eq!(sheets(seed), sheets(seed));
            assert_eq!(find_input(seed), find_input(seed));
        }
    }

    #[test]
    fn an_index_is_ascending_by_number_then_row() {
        let rows = [[2, 23], [1, 17], [2, 17], [2, 0], [5, 23], [2, 23]];
        assert_eq!(index_of(&rows), [[17, 3], [23, 1], [23, 6]]);
    }

    #[test]
    fn every_harm_is_done() {
        let seen: BTreeSet<&str> = (0..2_000).flat_map(|seed| asked(seed).what).collect();
        let rows = ROWS.iter().map(|(what, _)| what);
        let pairs = PAIRS.iter().map(|(what, _)| what);
        let lengths = LENGTHS.iter().map(|(what, _)| what);
        for what in rows.chain(pairs).chain(lengths) {
            assert!(seen.contains(what), "{what}");
        }
    }

    #[test]
    fn rows_of_every_count_up_to_257_and_of_every_kind_occur() {
        let all: Vec<Asked> = (0..2_000).map(asked).collect();
        let counts: BTreeSet<u32> = all.iter().map(|asked| asked.count).collect();
        assert!([0, 1, 2, 255, 256, 257, u32::MAX]
            .iter()
            .all(|count| counts.contains(count)));
        let held: BTreeSet<[u32; 2]> = all.iter().flat_map(Asked::held).collect();
        for kind in [0, 1, 2, 3, 4, 5, u32::MAX] {
            for number in [0, 1, u32::MAX] {
                assert!(held.contains(&[kind, number]), "{kind} {number}");
            }
        }
    }

    #[test]
    fn sheets_have_none_to_256_package_numbers_some_of_them_equal() {
        let known: Vec<Vec<[u32; 2]>> = (0..1_000).filter_map(|seed| sheets(seed).meant).collect();
        let lengths: BTreeSet<usize> = known.iter().map(Vec::len).collect();
        assert!([0, 1, 2, 256].iter().all(|length| lengths.contains(length)));
        let equal = |index: &&Vec<[u32; 2]>| index.windows(2).any(|two| two[0][0] == two[1][0]);
        let some = known.iter().filter(equal).count();
        assert!(some > 300 && known.len() - some > 100, "{some}");
        let digits: BTreeSet<usize> = known
            .iter()
            .flatten()
            .map(|[number, _]| number.to_string().len())
            .collect();
        assert_eq!(digits, (2..=8).collect());
    }
}
