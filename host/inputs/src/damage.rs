//! Damage: breaks a page or a set of pages in one place, so that nearly always one rule is broken and no other.

use crate::cut::set_numbers;
use crate::fields::{fields_of, EXCLUDED, FIELDS};
use crate::plan::{Attribute, Element, Value};
use crate::random::Random;
use crate::references::{broken_number, broken_reference};
use crate::spelling::LONGEST_PAGE;
use crate::values::{near, otherwise_known, right, value_near, Fullness, Ink};

const USUAL: Fullness = Fullness {
    ink: Ink::Plain,
    longest: 5,
    usual: 8,
};

/// Any element of the page, the outermost included.
fn any<'a>(page: &'a mut Element, random: &mut Random) -> &'a mut Element {
    let place = random.below(page.count());
    page.nth(place)
}

/// Gives one field, present or not, a value near the edge of its rule.
pub fn near_miss(page: &mut Element, random: &mut Random) {
    let element = any(page, random);
    let name = element.name.clone();
    let open: Vec<_> = fields_of(&name)
        .filter(|field| element.has(field.name) || element.takes(field.name))
        .collect();
    if open.is_empty() {
        return;
    }
    let field = *random.pick(&open);
    let value = near(field.rule, random);
    element.set(field.name, Value::Meant(value));
}

/// Gives the birth date or the print time a value near the edge of its rule, or has more or less of the birth date known.
pub fn date(page: &mut Element, random: &mut Random) {
    let (name, letter) = *random.pick(&[("P", "b"), ("P", "b"), ("A", "t")]);
    if let Some(element) = page.children.iter_mut().find(|child| child.name == name) {
        let value = match element.meant(letter) {
            Some(born) if name == "P" && random.chance(40) => otherwise_known(born, random),
            _ => value_near(&format!("{name}.{letter}"), random),
        };
        element.set(letter, Value::Meant(value));
    }
}

/// Puts a reference that no value may hold, or that is none, into a value.
pub fn bad_reference(page: &mut Element, random: &mut Random) {
    let element = any(page, random);
    if element.attributes.is_empty() {
        return;
    }
    let place = random.below(element.attributes.len());
    let reference = match random.chance(50) {
        true => broken_number(random),
        false => broken_reference(random),
    };
    let plain = |byte: &u8| byte.is_ascii_alphanumeric();
    let mut raw: Vec<u8> = match &element.attributes[place].value {
        Value::Meant(value) | Value::Raw(value) => value.iter().copied().filter(plain).collect(),
    };
    let at = random.between(0, raw.len());
    raw.splice(at..at, reference);
    element.attributes[place].value = Value::Raw(raw);
}

/// Adds the other field of an excluded pair, right, empty or zero.
pub fn excluded_pair(page: &mut Element, random: &mut Random) {
    let (name, one, other) = *random.pick(EXCLUDED);
    let places: Vec<usize> = (0..page.count())
        .filter(|place| page.nth(*place).name == name)
        .collect();
    if places.is_empty() {
        return;
    }
    let element = page.nth(*random.pick(&places));
    for field in fields_of(name).filter(|field| field.name == one || field.name == other) {
        let value = match random.below(3) {
            0 => Vec::new(),
            1 => b"0".to_vec(),
            _ => right(field.rule, USUAL, random),
        };
        if !element.has(field.name) {
            element.set(field.name, Value::Meant(value));
        }
    }
}

/// Takes an attribute away, doubles it, renames it or adds one that does not belong there.
pub fn attribute(page: &mut Element, random: &mut Random) {
    const NAMES: &[&str] = &[
        "V", "g", "t", "w", "x", "a", "xml", "u", "fd", "I", "b1", "c",
    ];
    let element = any(page, random);
    let stranger = Attribute {
        name: random.word(NAMES).to_string(),
        value: Value::Meant(b"1".to_vec()),
    };
    if element.attributes.is_empty() || random.chance(15) {
        element.attributes.push(stranger);
        return;
    }
    let place = random.below(element.attributes.len());
    match random.below(4) {
        0 | 1 => drop(element.attributes.remove(place)),
        2 => {
            let double = element.attributes[place].clone();
            let behind = random.between(0, element.attributes.len());
            element.attributes.insert(behind, double);
        }
        _ => element.attributes[place].name = renamed(&element.attributes[place].name, random),
    }
}

/// Another name: the other case, one letter more, or some field's name.
fn renamed(name: &str, random: &mut Random) -> String {
    match random.below(3) {
        0 if name.to_uppercase() != name => name.to_uppercase(),
        0 => name.to_lowercase(),
        1 => format!("{name}{}", random.word(&["1", "x", "P"])),
        _ => random.pick(FIELDS).name.to_string(),
    }
}

/// Takes a needed field away, or leaves it there empty.
pub fn missing_field(page: &mut Element, random: &mut Random) {
    let element = any(page, random);
    let name = element.name.clone();
    let needed: Vec<_> = fields_of(&name)
        .filter(|field| field.needed || name == "M")
        .collect();
    if needed.is_empty() {
        return;
    }
    let field = *random.pick(&needed);
    match random.chance(60) {
        true => element.unset(field.name),
        false => element.set(field.name, Value::Meant(b" ".to_vec())),
    }
    if name == "M" && random.chance(60) {
        element.children.clear();
        element.unset("p");
        element.unset("a");
    }
}

/// Takes an element away, doubles it, renames it or moves it to another place.
pub fn element(page: &mut Element, random: &mut Random) {
    const NAMES: &[&str] = &["MP", "P", "A", "O", "S", "M", "W", "R", "X", "Q", "m", "PP"];
    let parent = any(page, random);
    if parent.children.is_empty() {
        let child = Element::new(random.word(NAMES));
        parent.children.push(child);
        return;
    }
    let place = random.below(parent.children.len());
    match random.below(6) {
        0 => drop(parent.children.remove(place)),
        1 => {
            let double = parent.children[place].clone();
            parent.children.insert(place, double);
        }
        2 => parent.children[place].name = random.word(NAMES).to_string(),
        3 => {
            let other = random.below(parent.children.len());
            parent.children.swap(place, other);
        }
        _ => {
            let moved = parent.children.remove(place);
            any(page, random).children.push(moved);
        }
    }
}

/// Puts more substances into a medication than it may hold, or some that it may.
pub fn substances(page: &mut Element, random: &mut Random) {
    let medications: Vec<usize> = (0..page.count())
        .filter(|place| page.nth(*place).name == "M")
        .collect();
    if medications.is_empty() {
        return;
    }
    let medication = page.nth(*random.pick(&medications));
    while medication.children.len() < 3 || random.chance(70) && medication.children.len() < 6 {
        let mut substance = Element::new("W");
        substance.set("w", Value::Meant(b"Ibuprofen".to_vec()));
        medication.children.push(substance);
    }
}

/// Changes the version.
pub fn version(page: &mut Element, random: &mut Random) {
    const VERSIONS: &[&str] = &[
        "026", "028", "27", "0270", " 027", "", " ", "O27", "27 ", "027a",
    ];
    match random.below(5) {
        0 => page.unset("v"),
        1 => page.set(
            "v",
            Value::Raw([b"02", broken_number(random).as_slice(), b"7"].concat()),
        ),
        2 => page.set("v", Value::Raw(b"0&#50;7 ".to_vec())),
        _ => page.set("v", Value::Meant(random.word(VERSIONS).as_bytes().to_vec())),
    }
}

/// Changes page number or page count.
pub fn numbering(page: &mut Element, random: &mut Random) {
    const NUMBERS: &[&str] = &["1", "2", "3", "5", "9", "0", "", "10", "a", " "];
    match random.below(5) {
        0 => page.unset("a"),
        1 => page.unset("z"),
        2 => page.set("a", Value::Meant(random.word(NUMBERS).as_bytes().to_vec())),
        3 => page.set("z", Value::Meant(random.word(NUMBERS).as_bytes().to_vec())),
        _ => {
            let count = random.between(1, 9);
            let number = random.between(1, 9);
            set_numbers(page, &number.to_string(), &count.to_string());
        }
    }
}

/// Changes the head of one page and keeps it right, so that it no longer agrees with the others.
pub fn head(page: &mut Element, random: &mut Random) {
    let people = page
        .children
        .iter()
        .filter(|child| child.name != "S")
        .count();
    let chosen = random.below(people + 1);
    let element = match chosen {
        0 => &mut *page,
        place => &mut page.children[place - 1],
    };
    let name = element.name.clone();
    let fields: Vec<_> = fields_of(&name)
        .filter(|field| !["v", "a", "z"].contains(&field.name) || name != "MP")
        .collect();
    let field = *random.pick(&fields);
    let value = right(field.rule, USUAL, random);
    match element.has(field.name) && !field.needed && random.chance(50) {
        true => element.unset(field.name),
        false if element.has(field.name) || element.takes(field.name) => {
            element.set(field.name, Value::Meant(value))
        }
        false => {}
    }
}

/// Flips, drops, adds, doubles or moves a few bytes, or ends the page early.
pub fn bytes(page: &mut Vec<u8>, random: &mut Random) {
    if page.is_empty() {
        return;
    }
    let place = random.below(page.len());
    let end = (place + random.between(1, 6)).min(page.len());
    match random.below(8) {
        0 => page[place] ^= 1 << random.below(8),
        1 => page[place] = random.byte(ALPHABET),
        2 => drop(page.drain(place..end)),
        3 => page.insert(place, random.byte(ALPHABET)),
        4 => page.truncate(place),
        5 => {
            let piece = page[place..end].to_vec();
            page.splice(place..place, piece);
        }
        6 => page.extend_from_slice(
            random
                .word(&["a", "<", "<!---->", "</MP>", "<MP/>", "\u{7f}", " x "])
                .as_bytes(),
        ),
        _ => {
            let other = random.below(page.len());
            page.swap(place, other);
        }
    }
}

/// The bytes that markup is made of, for damage that comes close to it.
pub const ALPHABET: &[u8] = b"<>/=\"' \t\n\r&#x;a1MPSAWbt0~\xE4";

/// Puts a byte that no page may hold somewhere into the page.
pub fn forbidden_byte(page: &mut Vec<u8>, random: &mut Random) {
    const FORBIDDEN: &[u8] = &[0, 1, 8, 11, 12, 14, 31, 127, 128, 133, 150, 159];
    let byte = random.byte(FORBIDDEN);
    let place = random.between(0, page.len());
    match place < page.len() && random.chance(50) {
        true => page[place] = byte,
        false => page.insert(place, byte),
    }
}

/// Fills the page with spaces to exactly 1,400 or 1,401 bytes, or to a size well above.
pub fn size(page: &mut Vec<u8>, random: &mut Random) {
    let goal = *random.pick(&[
        LONGEST_PAGE - 1,
        LONGEST_PAGE,
        LONGEST_PAGE,
        LONGEST_PAGE + 1,
        LONGEST_PAGE + 1,
        1500,
        3000,
    ]);
    let spaces = vec![b' '; goal.saturating_sub(page.len())];
    match random.chance(50) {
        true => page.extend(spaces),
        false => drop(page.splice(0..0, spaces)),
    }
}

/// Changes which pages are there: one missing, one twice, none, too many, an empty one.
pub fn set(pages: &mut Vec<Vec<u8>>, random: &mut Random) {
    let place = random.below(pages.len());
    let page = pages[place].clone();
    match random.below(10) {
        0..=2 => drop(pages.remove(place)),
        3..=5 => pages.insert(random.between(0, place), page),
        6 => pages[place].clear(),
        7 => pages.clear(),
        _ => {
            let goal = *random.pick(&[10, 10, 11, 12, 30]);
            pages.resize(goal, page);
        }
    }
}

#[cfg(test)]
mod tests {
    use super::*;
    use crate::plan::{Plan, Shape};

    fn some_page(random: &mut Random) -> Element {
        let shape = Shape::usual(4, random);
        let plan = Plan::random(shape, random);
        let mut page = plan.mp.clone();
        page.children = plan.people.clone();
        page.children.push(Element {
            name: "S".to_string(),
            attributes: Vec::new(),
            children: plan.rows,
        });
        page
    }

    #[test]
    fn damage_to_elements_changes_the_page_nearly_always() {
        type Damage = fn(&mut Element, &mut Random);
        let damages: [Damage; 9] = [
            near_miss,
            date,
            bad_reference,
            attribute,
            missing_field,
            element,
            version,
            numbering,
            head,
        ];
        for damage in damages {
            let changed = (0..200).filter(|seed| {
                let mut random = Random::new(*seed);
                let before = some_page(&mut random);
                let mut after = before.clone();
                damage(&mut after, &mut random);
                before != after
            });
            assert!(changed.count() > 100);
        }
    }

    #[test]
    fn padding_reaches_both_sides_of_the_longest_page() {
        let padded = |seed| {
            let mut page = b"<MP/>".to_vec();
            size(&mut page, &mut Random::new(seed));
            page.len()
        };
        let sizes: Vec<usize> = (0..100).map(padded).collect();
        assert!(sizes.contains(&1400) && sizes.contains(&1401));
    }
}
