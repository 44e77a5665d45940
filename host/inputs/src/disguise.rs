//! Disguises: other ways to state the same plan that reading must not notice, such as empty fields and zero doses.

use crate::fields::{fields_of, Rule};
use crate::plan::{Element, Plan, Value};
use crate::random::Random;

const TIMES: &[&str] = &["m", "d", "v", "h"];

/// Disguises a row or a part of the head; `percent` says how often each disguise is put on.
pub fn element(element: &mut Element, percent: usize, random: &mut Random) {
    forms(element, percent, random);
    trailing_blanks(element, percent, random);
    absent_fields(element, percent, random);
    for child in &mut element.children {
        self::element(child, percent, random);
    }
}

/// States numbers and the language in another of their forms.
fn forms(element: &mut Element, percent: usize, random: &mut Random) {
    if element.name == "M" && random.chance(percent) {
        pad_package(element, random);
    }
    if element.name == "MP" && random.chance(percent) {
        patch_form(element, random);
    }
    let german = element
        .meant("l")
        .is_some_and(|language| language == b"de-DE");
    if element.name == "MP" && german && random.chance(percent.max(20)) {
        element.unset("l");
    }
}

/// Puts zeros before a package number, up to eight digits in all.
fn pad_package(element: &mut Element, random: &mut Random) {
    if let Some(number) = element.meant("p").cloned() {
        let zeros = random.between(0, 8 - number.len());
        let padded = [vec![b'0'; zeros], number].concat();
        element.set("p", Value::Meant(padded));
    }
}

/// Writes a patch of one digit with two, and patch 0 as "0" or "00".
fn patch_form(element: &mut Element, random: &mut Random) {
    let form = match element.meant("p") {
        None => random.word(&["0", "00", ""]).as_bytes().to_vec(),
        Some(patch) if patch.len() == 1 => [b"0", patch.as_slice()].concat(),
        Some(patch) => patch.clone(),
    };
    element.set("p", Value::Meant(form));
}

/// Lets blanks follow some values.
fn trailing_blanks(element: &mut Element, percent: usize, random: &mut Random) {
    for attribute in &mut element.attributes {
        if let Value::Meant(value) = &mut attribute.value {
            if random.chance(percent / 3) {
                let blanks = random.between(1, 3);
                value.extend(vec![b' '; blanks]);
            }
        }
    }
}

/// States some absent fields as empty, as blanks, or, where they are times of day, as a dose of zero.
fn absent_fields(element: &mut Element, percent: usize, random: &mut Random) {
    for field in fields_of(&element.name.clone()) {
        let numbering = field.rule == Rule::PageNumber;
        if numbering || field.needed || !element.takes(field.name) || !random.chance(percent / 2) {
            continue;
        }
        let dose = element.name == "M" && TIMES.contains(&field.name);
        let nothing = match random.below(4) {
            0 | 1 if dose => b"0".to_vec(),
            0 => b"   ".to_vec(),
            1 => b" ".to_vec(),
            _ => Vec::new(),
        };
        element.set(field.name, Value::Meant(nothing));
    }
}

/// The head of a right page as a listing, with every disguise taken off.
pub fn head_listing(page: &Element) -> Vec<u8> {
    let mut mp = bared(page);
    mp.unset("a");
    mp.unset("z");
    let patch = mp
        .meant("p")
        .and_then(|patch| std::str::from_utf8(patch).ok()?.parse().ok());
    mp.unset("p");
    if let Some(patch @ 1..=99) = patch {
        mp.set("p", Value::Meant(patch.to_string().into_bytes()));
    }
    if !mp.has("l") {
        mp.set("l", Value::Meant(b"de-DE".to_vec()));
    }
    let people = page
        .children
        .iter()
        .filter(|child| child.name != "S")
        .map(bared);
    Plan {
        mp,
        people: people.collect(),
        rows: Vec::new(),
    }
    .listing()
}

/// The element alone, without trailing blanks and fields that are then empty.
fn bared(element: &Element) -> Element {
    let mut bared = Element::new(&element.name);
    for attribute in &element.attributes {
        if let Value::Meant(value) = &attribute.value {
            let end = value
                .iter()
                .rposition(|byte| *byte != b' ')
                .map_or(0, |last| last + 1);
            if end > 0 {
                bared.set(&attribute.name, Value::Meant(value[..end].to_vec()));
            }
        }
    }
    bared
}

#[cfg(test)]
mod tests {
    use super::*;

    #[test]
    fn a_disguise_adds_no_excluded_pair() {
        for seed in 0..500 {
            let mut row = Element::new("M");
            row.set("t", Value::Meant(b"bei Bedarf".to_vec()));
            element(&mut row, 100, &mut Random::new(seed));
            assert!(TIMES.iter().all(|time| !row.has(time)));
            assert!(!(row.has("f") && row.has("fd")));
        }
    }

    #[test]
    fn a_head_lists_alike_under_every_disguise() {
        let mut page = Element::new("MP");
        page.set("l", Value::Meant(b"de-DE".to_vec()));
        page.set("p", Value::Meant(b"7".to_vec()));
        let meant = head_listing(&page);
        for seed in 0..200 {
            let mut disguised = page.clone();
            element(&mut disguised, 100, &mut Random::new(seed));
            disguised.children.push(Element::new("O"));
            assert_eq!(head_listing(&disguised), meant);
        }
        page.set("p", Value::Meant(b"8".to_vec()));
        assert_ne!(head_listing(&page), meant);
    }

    #[test]
    fn package_numbers_grow_to_at_most_eight_digits() {
        let mut longest = 0;
        for seed in 0..100 {
            let mut row = Element::new("M");
            row.set("p", Value::Meant(b"2394428".to_vec()));
            pad_package(&mut row, &mut Random::new(seed));
            longest = longest.max(row.meant("p").unwrap().len());
        }
        assert_eq!(longest, 8);
    }
}
