//! Plans as numbers, as a caller may hand them to the writer or ask for their cells: sound ones, laid anywhere in a text, ones that fill their
//! pages to the last byte, and ones that are broken in a place or two.

use crate::case::{full_plan, long_plan, many_rows, quotes_plan, small_plan, usual_plan};
use crate::fields::{fields_of, Field, Rule, EXCLUDED};
use crate::fill::{filled_plan, long_head};
use crate::plan::{Element, Plan};
use crate::random::Random;
use crate::values::{near, right, Fullness, Ink};

/// The numbers of a row's record: kind, package number, 19 spans, and eight that mean nothing to a writer.
pub const RECORD: usize = 48;

/// The room that a caller has to lend for pages.
pub const PAGE_ROOM: usize = 12_600;

/// The spans of a head: U and l of MP, then P, A and O.
const HEAD_SPANS: usize = 27;

/// The spans of a record, and the first that belongs to a substance.
const ROW_SPANS: usize = 19;
const SUBSTANCES: usize = 13;

/// The row kinds, each at its number less one.
const KINDS: [&str; 4] = ["S", "M", "R", "X"];

/// A plan as numbers, with all that a call lends.
#[derive(Clone, Debug, PartialEq)]
pub struct Numbers {
    /// What was done to it last.
    pub what: &'static str,
    pub patch: u32,
    /// How many rows the plan says it has.
    pub count: u32,
    /// The start and the length of each of the head's 27 spans.
    pub head: Vec<u32>,
    /// The rows lent, a record behind the other.
    pub rows: Vec<u32>,
    pub text: Vec<u8>,
    /// The bytes lent for pages.
    pub room: usize,
}

/// A span of the head, or of a row counted from 0.
#[derive(Clone, Copy, Debug)]
enum Slot {
    Head(usize),
    Row(usize, usize),
}

impl Numbers {
    /// The whole records that are lent.
    fn records(&self) -> usize {
        self.rows.len() / RECORD
    }

    fn span(&mut self, slot: Slot) -> &mut [u32] {
        match slot {
            Slot::Head(span) => &mut self.head[2 * span..][..2],
            Slot::Row(row, span) => &mut self.rows[RECORD * row + 2 + 2 * span..][..2],
        }
    }

    /// The bytes that a span names, if it lies within the text.
    fn value(&mut self, slot: Slot) -> Vec<u8> {
        let [start, length] = [0, 1].map(|at| self.span(slot)[at] as usize);
        let named = self.text.get(start..start.saturating_add(length));
        named.unwrap_or(b"").to_vec()
    }

    /// Lays a value behind the text and lets the span name it.
    fn set(&mut self, slot: Slot, value: &[u8]) {
        let start = self.text.len() as u32;
        self.text.extend(value);
        let length = value.len() as u32;
        self.span(slot).copy_from_slice(&[start, length]);
    }

    /// The element that a row's kind stands for; a note's where it stands for none.
    fn element(&self, row: usize) -> &'static str {
        let kind = self.rows[RECORD * row] as usize;
        KINDS.get(kind.wrapping_sub(1)).unwrap_or(&"X")
    }

    /// A row, if there is one; of a kind, if there is one of it.
    fn some_row(&self, kind: Option<&str>, random: &mut Random) -> Option<usize> {
        let rows = 0..self.records().min(self.count as usize);
        let of_kind: Vec<usize> = rows
            .filter(|row| kind.is_none_or(|kind| self.element(*row) == kind))
            .collect();
        (!of_kind.is_empty()).then(|| *random.pick(&of_kind))
    }

    /// A span of the head or of a row, with the element and the field that it belongs to.
    fn some_field(&self, random: &mut Random) -> (Slot, &'static str, &'static Field) {
        let row = self.some_row(None, random).filter(|_| random.chance(75));
        let fields: Vec<(Slot, &'static str, &'static Field)> = match row {
            None => head_fields(),
            Some(row) => row_fields(self.element(row), row),
        };
        *random.pick(&fields)
    }

    fn some_slot(&self, random: &mut Random) -> Slot {
        match self.some_row(None, random).filter(|_| random.chance(75)) {
            None => Slot::Head(random.below(HEAD_SPANS)),
            Some(row) => Slot::Row(row, random.below(ROW_SPANS)),
        }
    }
}

/// The fields of an element whose values lie in the text, in writing order.
fn kept(element: &'static str) -> impl Iterator<Item = &'static Field> {
    let number = [Rule::Version, Rule::Patch, Rule::PageNumber, Rule::Package];
    fields_of(element).filter(move |field| !number.contains(&field.rule))
}

/// The spans of the head with their fields.
fn head_fields() -> Vec<(Slot, &'static str, &'static Field)> {
    let all = ["MP", "P", "A", "O"].into_iter();
    let fields = all.flat_map(|name| kept(name).map(move |field| (name, field)));
    let numbered = fields.enumerate();
    numbered
        .map(|(span, (name, field))| (Slot::Head(span), name, field))
        .collect()
}

/// The spans of a row that comes from such an element with their fields.
fn row_fields(element: &'static str, row: usize) -> Vec<(Slot, &'static str, &'static Field)> {
    let substances = if element == "M" { 3 } else { 0 };
    let own = kept(element).map(|field| (element, field));
    let pairs = (0..substances).flat_map(|_| kept("W").map(|field| ("W", field)));
    let numbered = own.chain(pairs).enumerate();
    numbered
        .map(|(span, (name, field))| (Slot::Row(row, span), name, field))
        .collect()
}

/// The numbers of this seed.
pub fn numbers(seed: u64) -> Numbers {
    let mut random = Random::new(seed ^ 0x0113);
    let make = *random.pick(&[
        usual_plan,
        usual_plan,
        usual_plan,
        small_plan,
        small_plan,
        small_plan,
        long_plan,
        quotes_plan,
        many_rows,
        full_plan,
        filled_plan,
        filled_plan,
        long_head,
    ]);
    let plan = make(&mut random);
    let mut numbers = laid(&plan, &mut random);
    let times = *random.pick(&[0, 0, 0, 1, 1, 1, 1, 1, 1, 2]);
    for _ in 0..times {
        let (what, harm) = *random.pick(HARMS);
        numbers.what = what;
        harm(&mut numbers, &mut random);
    }
    numbers
}

/// What may be done to the numbers of a plan. Some of it does no harm.
#[allow(clippy::type_complexity)]
const HARMS: &[(&str, fn(&mut Numbers, &mut Random))] = &[
    ("count", count),
    ("rows lent", rows_lent),
    ("room", room),
    ("patch", patch),
    ("kind", kind),
    ("package", package),
    ("package", package),
    ("near value", near_value),
    ("near value", near_value),
    ("near value", near_value),
    ("date", date),
    ("date", date),
    ("trailing blank", trailing_blank),
    ("one byte more", one_byte_more),
    ("byte", byte),
    ("zero dose", zero_dose),
    ("excluded pair", excluded_pair),
    ("missing", missing),
    ("substances", substances),
    ("nothing to say", nothing_to_say),
    ("span", span),
    ("span", span),
    ("absent", absent),
    ("spare span", spare_span),
    ("spare numbers", spare_numbers),
    ("text cut", text_cut),
    ("random record", random_record),
    ("random head", random_head),
];

/// Lays the values of a plan into a text: as the reader does, in any order with other bytes between, or on top of each other.
fn laid(plan: &Plan, random: &mut Random) -> Numbers {
    let mut numbers = Numbers {
        what: "sound",
        patch: number(&plan.mp),
        count: plan.rows.len() as u32,
        head: vec![0; 2 * HEAD_SPANS],
        rows: vec![0; RECORD * plan.rows.len()],
        text: Vec::new(),
        room: PAGE_ROOM,
    };
    let mut values = Vec::new();
    for (slot, name, field) in head_fields() {
        let element = [&plan.mp]
            .into_iter()
            .chain(&plan.people)
            .find(|element| element.name == name);
        values.push((slot, element.and_then(|element| element.meant(field.name))));
    }
    for (row, element) in plan.rows.iter().enumerate() {
        let kind = KINDS.iter().position(|kind| **kind == element.name);
        let kind = kind.expect("a row has one of four kinds");
        numbers.rows[RECORD * row] = kind as u32 + 1;
        numbers.rows[RECORD * row + 1] = number(element);
        for (span, (slot, name, field)) in row_fields(KINDS[kind], row).into_iter().enumerate() {
            let from = match name {
                "W" => element.children.get((span - SUBSTANCES) / 2),
                _ => Some(element),
            };
            values.push((slot, from.and_then(|from| from.meant(field.name))));
        }
    }
    let mut values: Vec<(Slot, Vec<u8>)> = values
        .into_iter()
        .filter_map(|(slot, value)| Some((slot, value?.clone())))
        .collect();
    match random.below(3) {
        0 => values
            .iter()
            .for_each(|(slot, value)| numbers.set(*slot, value)),
        1 => {
            random.shuffle(&mut values);
            for (slot, value) in &values {
                let between = random.below(4);
                numbers.text.extend(random.bytes(b"\0\x7F <a", between));
                numbers.set(*slot, value);
            }
        }
        _ => values
            .iter()
            .for_each(|(slot, value)| share(&mut numbers, *slot, value)),
    }
    numbers
}

/// Lets the span name the value where it stands in the text already, or lays it behind.
fn share(numbers: &mut Numbers, slot: Slot, value: &[u8]) {
    let found = numbers
        .text
        .windows(value.len())
        .position(|window| window == value);
    match found {
        Some(start) => numbers
            .span(slot)
            .copy_from_slice(&[start as u32, value.len() as u32]),
        None => numbers.set(slot, value),
    }
}

/// The number that the field p of an element has, 0 where it is absent.
fn number(element: &Element) -> u32 {
    let digits = element.meant("p").filter(|_| element.name != "P");
    let text = digits.map(|digits| String::from_utf8_lossy(digits).into_owned());
    text.and_then(|text| text.parse().ok()).unwrap_or(0)
}

fn count(numbers: &mut Numbers, random: &mut Random) {
    let lent = numbers.records() as u32;
    let counts = [0, 1, 255, 256, 257, 300, u32::MAX, lent + 1, lent / 2];
    numbers.count = *random.pick(&counts);
    // At times there are as many rows as it says.
    if numbers.count > lent && numbers.count <= 300 && lent > 0 && random.chance(70) {
        let last = numbers.rows[RECORD * (lent as usize - 1)..].to_vec();
        while numbers.records() < numbers.count as usize {
            numbers.rows.extend(&last[..RECORD]);
        }
    }
}

fn rows_lent(numbers: &mut Numbers, random: &mut Random) {
    match random.below(3) {
        0 => {
            let more = *random.pick(&[1, 47, 48, 49, RECORD * 300]);
            let filling = *random.pick(&[0, 2, u32::MAX]);
            let length = numbers.rows.len() + more;
            numbers.rows.resize(length, filling);
        }
        1 => drop(numbers.rows.pop()),
        _ => {
            let left = numbers.rows.len().saturating_sub(RECORD);
            numbers.rows.truncate(left);
        }
    }
}

fn room(numbers: &mut Numbers, random: &mut Random) {
    let least = PAGE_ROOM;
    numbers.room = *random.pick(&[0, 1, 1_400, least - 1, least - 1, least, least + 1, 20_000]);
}

fn patch(numbers: &mut Numbers, random: &mut Random) {
    numbers.patch = *random.pick(&[0, 1, 9, 10, 99, 100, 101, 255, 256, 257, 355, u32::MAX]);
}

fn kind(numbers: &mut Numbers, random: &mut Random) {
    if let Some(row) = numbers.some_row(None, random) {
        numbers.rows[RECORD * row] =
            *random.pick(&[0, 1, 2, 3, 4, 5, 6, 52, 72, 77, 255, 258, u32::MAX]);
    }
}

/// A package number that is right or nearly so; a right one at times for a row that is no medication.
fn package(numbers: &mut Numbers, random: &mut Random) {
    let kind = random.chance(70).then_some("M");
    let Some(row) = numbers.some_row(kind, random) else {
        return;
    };
    let held = numbers.rows[RECORD * row + 1];
    let near = String::from_utf8(near(Rule::Package, random)).unwrap_or_default();
    let nine_digits = 110_845_080 + random.below(10) as u32;
    numbers.rows[RECORD * row + 1] = match random.below(7) {
        _ if numbers.element(row) != "M" => 2_394_428,
        0 => held.wrapping_add(1),
        1 => held.wrapping_mul(10),
        2 => held.wrapping_add(100_000_000),
        3 => *random.pick(&[0, 1, 19, 2_394_428, 99_999_999, 100_000_000, u32::MAX]),
        4 => random.number() as u32,
        5 => nine_digits,
        _ => near.parse().unwrap_or(2_394_428),
    };
}

/// A value near the edge of its field's rule.
fn near_value(numbers: &mut Numbers, random: &mut Random) {
    let (slot, _, field) = numbers.some_field(random);
    let value = near(field.rule, random);
    numbers.set(slot, &value);
}

/// A birth date or a print time near the edge of its rule.
fn date(numbers: &mut Numbers, random: &mut Random) {
    let rule = *random.pick(&[Rule::Birth, Rule::Birth, Rule::Moment]);
    let value = near(rule, random);
    for (slot, _, _) in head_fields()
        .into_iter()
        .filter(|(_, _, field)| field.rule == rule)
    {
        numbers.set(slot, &value);
    }
}

fn trailing_blank(numbers: &mut Numbers, random: &mut Random) {
    let (slot, _, _) = numbers.some_field(random);
    let mut value = numbers.value(slot);
    value.extend(vec![b' '; random.between(1, 2)]);
    if random.chance(50) {
        value.remove(0);
    }
    numbers.set(slot, &value);
}

/// A value as long as its field allows, or one byte longer.
fn one_byte_more(numbers: &mut Numbers, random: &mut Random) {
    let (slot, _, field) = numbers.some_field(random);
    let longest = Fullness {
        ink: Ink::Mixed,
        longest: 100,
        usual: 1,
    };
    let mut value = right(field.rule, longest, random);
    if random.chance(60) {
        let last = value[value.len() - 1];
        value.push(last);
    }
    numbers.set(slot, &value);
}

/// A byte of a value that no value may have, or nearly so.
fn byte(numbers: &mut Numbers, random: &mut Random) {
    let (slot, _, _) = numbers.some_field(random);
    let mut value = numbers.value(slot);
    if value.is_empty() {
        value.push(b'a');
    }
    let place = random.below(value.len());
    value[place] = *random.pick(&[0, 9, 10, 13, 31, 32, 126, 127, 128, 159, 160, 255]);
    numbers.set(slot, &value);
}

fn zero_dose(numbers: &mut Numbers, random: &mut Random) {
    if let Some(row) = numbers.some_row(Some("M"), random) {
        let span = random.between(3, 6);
        let dose = *random.pick(&["0", "00", "0,0", "0/1", "0 ", "1/0"]);
        numbers.set(Slot::Row(row, span), dose.as_bytes());
    }
}

/// Gives two fields that exclude each other a right value each.
fn excluded_pair(numbers: &mut Numbers, random: &mut Random) {
    let (element, one, other) = *random.pick(EXCLUDED);
    let fields = match numbers.some_row(Some(element), random) {
        Some(row) => row_fields(numbers.element(row), row),
        None => head_fields(),
    };
    let usual = Fullness {
        ink: Ink::Plain,
        longest: 0,
        usual: 4,
    };
    for (slot, name, field) in fields {
        if name == element && (field.name == one || field.name == other) {
            let value = right(field.rule, usual, random);
            numbers.set(slot, &value);
        }
    }
}

/// Takes a field away, mostly one that is needed, such as the language.
fn missing(numbers: &mut Numbers, random: &mut Random) {
    let (slot, _, _) = (0..20)
        .map(|_| numbers.some_field(random))
        .find(|(_, _, field)| field.needed || field.name == "l")
        .unwrap_or((Slot::Head(1), "MP", &crate::FIELDS[3]));
    numbers.span(slot).fill(0);
}

/// Gives a row any of the six values of its substances, and takes the others away.
fn substances(numbers: &mut Numbers, random: &mut Random) {
    let kind = random.chance(90).then_some("M");
    let Some(row) = numbers.some_row(kind, random) else {
        return;
    };
    for span in SUBSTANCES..ROW_SPANS {
        match random.chance(60) {
            true => numbers.set(Slot::Row(row, span), b"Wirkstoff"),
            false => numbers.span(Slot::Row(row, span)).fill(0),
        }
    }
}

/// A row without package number, name and substances, or a heading without c and t.
fn nothing_to_say(numbers: &mut Numbers, random: &mut Random) {
    if let Some(row) = numbers.some_row(None, random) {
        let spared = random.below(ROW_SPANS);
        for span in [0, 1].into_iter().chain(SUBSTANCES..ROW_SPANS) {
            if span != spared {
                numbers.span(Slot::Row(row, span)).fill(0);
            }
        }
        if random.chance(80) {
            numbers.rows[RECORD * row + 1] = 0;
        }
    }
}

/// A span that reaches the end of the text, or lies around it, or around the largest number.
fn span(numbers: &mut Numbers, random: &mut Random) {
    let end = numbers.text.len() as u32;
    let slot = match random.chance(50) {
        true => numbers.some_field(random).0,
        false => numbers.some_slot(random),
    };
    let [start, length] = [0, 1].map(|at| numbers.span(slot)[at]);
    let changed = match random.below(9) {
        0 => [end, 1],
        1 => [end.saturating_sub(length), length],
        2 => [end.saturating_sub(length).wrapping_add(1), length],
        3 => [u32::MAX, length],
        4 => [0u32.wrapping_sub(length), length],
        5 => [start, 0u32.wrapping_sub(start)],
        6 => [start, u32::MAX],
        7 => [
            random.below(end as usize + 2) as u32,
            random.below(12) as u32,
        ],
        _ => [random.number() as u32, random.number() as u32],
    };
    numbers.span(slot).copy_from_slice(&changed);
}

/// An absent value that begins anywhere.
fn absent(numbers: &mut Numbers, random: &mut Random) {
    for _ in 0..10 {
        let slot = numbers.some_slot(random);
        if numbers.span(slot)[1] == 0 {
            numbers.span(slot)[0] = random.number() as u32;
        }
    }
}

/// A value where the row's kind has none.
fn spare_span(numbers: &mut Numbers, random: &mut Random) {
    if let Some(row) = numbers.some_row(None, random) {
        let own = row_fields(numbers.element(row), row).len();
        let span = random.between(own.min(ROW_SPANS - 1), ROW_SPANS - 1);
        numbers.set(Slot::Row(row, span), b"1");
    }
}

/// The last eight numbers of a record, which mean nothing.
fn spare_numbers(numbers: &mut Numbers, random: &mut Random) {
    if let Some(row) = numbers.some_row(None, random) {
        for place in 2 + 2 * ROW_SPANS..RECORD {
            numbers.rows[RECORD * row + place] = random.number() as u32;
        }
    }
}

fn text_cut(numbers: &mut Numbers, random: &mut Random) {
    let length = numbers.text.len();
    let less = *random.pick(&[1, 1, 2, 10, length]);
    numbers.text.truncate(length.saturating_sub(less));
}

/// A number of any size, small ones often.
pub(crate) fn any_number(random: &mut Random) -> u32 {
    match random.below(4) {
        0 => 0,
        1 => random.below(6) as u32,
        2 => random.below(100) as u32,
        _ => random.number() as u32,
    }
}

fn random_record(numbers: &mut Numbers, random: &mut Random) {
    if let Some(row) = numbers.some_row(None, random) {
        for place in 0..RECORD {
            numbers.rows[RECORD * row + place] = any_number(random);
        }
    }
}

fn random_head(numbers: &mut Numbers, random: &mut Random) {
    for number in &mut numbers.head {
        *number = any_number(random);
    }
}

#[cfg(test)]
mod tests {
    use super::*;
    use std::collections::BTreeSet;

    #[test]
    fn one_seed_gives_one_set_of_numbers() {
        assert!((0..200).all(|seed| numbers(seed) == numbers(seed)));
    }

    #[test]
    fn the_spans_are_those_of_head_and_record() {
        assert_eq!(head_fields().len(), HEAD_SPANS);
        let spans = KINDS.map(|kind| row_fields(kind, 0).len());
        assert_eq!(spans, [2, ROW_SPANS, 2, 1]);
    }

    #[test]
    fn every_harm_is_done() {
        let seen: BTreeSet<&str> = (0..2_000).map(|seed| numbers(seed).what).collect();
        assert!(HARMS.iter().all(|(what, _)| seen.contains(what)));
        assert!(seen.contains("sound"));
    }

    #[test]
    fn a_plan_laid_out_holds_its_values() {
        for seed in 0..200 {
            let mut random = Random::new(seed);
            let plan = usual_plan(&mut random);
            let mut numbers = laid(&plan, &mut random);
            for (row, element) in plan.rows.iter().enumerate() {
                for (slot, name, field) in row_fields(numbers.element(row), row) {
                    if name != "W" {
                        let meant = element.meant(field.name).cloned().unwrap_or_default();
                        assert_eq!(numbers.value(slot), meant, "seed {seed}");
                    }
                }
            }
        }
    }
}
