//! One page: all its faults, or the sheet it is.

use crate::class::allowed;
use crate::markup::well_formed;
use crate::plan::{empty_values, Head, Row, RowKind, Values};
use crate::rules::{keeps, number, package};
use crate::table::{entry, inside, slot, Element, Field, Keep, Name, Rule, ELEMENTS, LANGUAGE};
use crate::tags::{outermost, Tag};
use crate::value::{read_value, BadNumber};
use crate::PAGE_BYTES;

/// A fault of a page: the refusal number and the place. Of all faults the smallest
/// number is told, and of these the smallest place.
pub type Fault = (u8, usize);

/// What one page says: it is page `number` of `count`, with this head and these rows.
#[derive(Clone, Debug, PartialEq, Eq)]
pub struct Sheet {
    pub number: usize,
    pub count: usize,
    pub head: Head,
    pub rows: Vec<Row>,
}

/// Judges a page: its smallest fault, or the sheet.
pub fn judge(page: &[u8]) -> Result<Sheet, Fault> {
    if page.is_empty() || page.len() > PAGE_BYTES {
        return Err((2, 0));
    }
    if let Some(place) = page.iter().position(|&byte| !allowed(byte)) {
        return Err((3, place));
    }
    well_formed(page).map_err(|place| (4, place))?;
    let mp = outermost(page);
    match faults(&mp).into_iter().min() {
        Some(fault) => Err(fault),
        None => Ok(sheet(&mp)),
    }
}

/// All faults numbered 5 to 8 of the outermost element and all that stands in it.
pub fn faults(mp: &Tag) -> Vec<Fault> {
    let mut found = Vec::new();
    match inside(None, mp.name) {
        Some(element) => element_faults(element, mp, &mut found),
        None => found.push((5, mp.place)),
    }
    found
}

/// The faults of one known element and of the elements in it.
fn element_faults(element: &Element, tag: &Tag, found: &mut Vec<Fault>) {
    attribute_faults(element, tag, found);
    value_faults(element, tag, found);
    let misses = misses_field(element, tag) || misses_element(element, tag);
    if misses || has_excluded_pair(element, tag) {
        found.push((8, tag.place));
    }
    if element.name == Name::MP {
        page_number_faults(tag, found);
    }
    child_faults(element, tag, found);
}

/// Refusal 5 for an attribute that is unknown or stands there twice.
fn attribute_faults(element: &Element, tag: &Tag, found: &mut Vec<Fault>) {
    for (at, (letter, _)) in tag.attributes.iter().enumerate() {
        let known = element
            .fields
            .iter()
            .any(|field| field.letter.as_bytes() == *letter);
        let twice = tag.attributes[..at]
            .iter()
            .any(|(earlier, _)| earlier == letter);
        if !known || twice {
            found.push((5, tag.place));
        }
    }
}

/// Refusal 6 for an edition other than 027, refusal 7 for a value that breaks its field.
fn value_faults(element: &Element, tag: &Tag, found: &mut Vec<Fault>) {
    for field in element.fields {
        let edition = field.keep == Keep::Edition;
        let good = match attribute(tag, field).map(read_value) {
            Some(Ok(value)) if !value.is_empty() => keeps(field, &value),
            Some(Err(BadNumber)) => false,
            _ => !edition,
        };
        if !good {
            found.push((if edition { 6 } else { 7 }, tag.place));
        }
    }
}

/// Whether a field marked * is absent, or an M has neither p nor a nor a W.
fn misses_field(element: &Element, tag: &Tag) -> bool {
    let absent = |letter: &str| present_text(element, tag, letter).is_empty();
    let unnamed = element.name == Name::M && absent("p") && absent("a") && tag.children.is_empty();
    unnamed
        || element
            .fields
            .iter()
            .any(|field| field.must && absent(field.letter))
}

/// Whether two fields that exclude each other both stand in the tag, even with an
/// empty or zero value.
fn has_excluded_pair(element: &Element, tag: &Tag) -> bool {
    let stands = |letter: &str| {
        tag.attributes
            .iter()
            .any(|(name, _)| *name == letter.as_bytes())
    };
    element
        .fields
        .iter()
        .any(|field| stands(field.letter) && field.excludes.iter().any(|other| stands(other)))
}

/// Refusal 7 for a above z, refusal 8 for one of them without the other.
fn page_number_faults(tag: &Tag, found: &mut Vec<Fault>) {
    let mp = entry(Name::MP);
    let a = present_text(mp, tag, "a");
    let z = present_text(mp, tag, "z");
    match (a.is_empty(), z.is_empty()) {
        (true, true) => {}
        (false, false) if a <= z => {}
        (false, false) => found.push((7, tag.place)),
        _ => found.push((8, tag.place)),
    }
}

/// Refusal 5 for an element that is unknown, misplaced or too many, and the faults
/// inside the known ones.
fn child_faults(element: &Element, tag: &Tag, found: &mut Vec<Fault>) {
    let children: Vec<_> = tag
        .children
        .iter()
        .map(|child| (child, inside(Some(element.name), child.name)))
        .collect();
    for (at, (child, kind)) in children.iter().enumerate() {
        let Some(kind) = kind else {
            found.push((5, child.place));
            continue;
        };
        let earlier = || children[..at].iter().filter_map(|(_, kind)| *kind);
        let same = earlier().filter(|other| other.name == kind.name).count();
        let behind = earlier().any(|other| other.name as usize > kind.name as usize);
        if same >= kind.most || behind && element.name == Name::MP {
            found.push((5, child.place));
        }
        element_faults(kind, child, found);
    }
}

/// Whether an element that must stand in this one is not there: a P or an A in MP.
fn misses_element(element: &Element, tag: &Tag) -> bool {
    let there = |wanted: &Element| {
        let letters = wanted.letters.as_bytes();
        tag.children.iter().any(|child| child.name == letters)
    };
    ELEMENTS
        .iter()
        .filter(|wanted| wanted.must && wanted.within == Some(element.name))
        .any(|wanted| !there(wanted))
}

/// The spelling of a field's value in a tag, if the tag has the attribute.
fn attribute<'a>(tag: &Tag<'a>, field: &Field) -> Option<&'a [u8]> {
    let wanted = field.letter.as_bytes();
    tag.attributes
        .iter()
        .find(|(letter, _)| *letter == wanted)
        .map(|(_, raw)| *raw)
}

/// The value of a field as the page has it; empty if it is absent.
fn present_text(element: &Element, tag: &Tag, letter: &str) -> Vec<u8> {
    let field = element.slot(letter).map(|slot| &element.fields[slot]);
    let raw = field.and_then(|field| attribute(tag, field));
    raw.and_then(|raw| read_value(raw).ok()).unwrap_or_default()
}

/// The values of an element as the plan keeps them: a dose of exactly "0" is absent,
/// and fields not kept as text have an empty slot.
fn values(element: &Element, tag: &Tag) -> Values {
    let mut values = empty_values(element.name);
    for (field, value) in element.fields.iter().zip(&mut values) {
        let text = present_text(element, tag, field.letter);
        let zero_dose = field.rule == Rule::Dose && text == b"0";
        if field.keep == Keep::Text && !zero_dose {
            *value = text;
        }
    }
    values
}

/// The sheet of a page without faults.
fn sheet(mp: &Tag) -> Sheet {
    let text = |letter| present_text(entry(Name::MP), mp, letter);
    let page_number = |letter| {
        text(letter)
            .first()
            .map_or(1, |digit| usize::from(digit - b'0'))
    };
    Sheet {
        number: page_number("a"),
        count: page_number("z"),
        head: head(mp, number(&text("p")) as u8),
        rows: rows(mp),
    }
}

/// The head of a page without faults. An absent l is de-DE.
fn head(mp: &Tag, patch: u8) -> Head {
    let mut head = Head {
        patch,
        ..Head::empty()
    };
    head.mp = values(entry(Name::MP), mp);
    let language = &mut head.mp[slot(Name::MP, "l")];
    if language.is_empty() {
        *language = LANGUAGE.as_bytes().to_vec();
    }
    for child in &mp.children {
        let element = inside(Some(Name::MP), child.name).expect("the page has no faults");
        if let Some(part) = head.part_mut(element.name) {
            *part = values(element, child);
        }
    }
    head
}

/// The rows of a page without faults, in document order. An S with c or t gives a
/// heading row; an S with neither gives none.
fn rows(mp: &Tag) -> Vec<Row> {
    let mut rows = Vec::new();
    for section in mp.children.iter().filter(|child| child.name == b"S") {
        let heading = Row {
            values: values(entry(Name::S), section),
            ..Row::empty(RowKind::H)
        };
        if heading.values.iter().any(|value| !value.is_empty()) {
            rows.push(heading);
        }
        rows.extend(section.children.iter().map(row));
    }
    rows
}

/// The row of an M, R or X.
fn row(tag: &Tag) -> Row {
    let kind = match tag.name {
        b"M" => RowKind::M,
        b"R" => RowKind::R,
        _ => RowKind::X,
    };
    let element = kind.element();
    let substance = |w: &Tag| -> [Vec<u8>; 2] {
        values(entry(Name::W), w)
            .try_into()
            .expect("a W has two fields")
    };
    Row {
        kind,
        package: package(&present_text(element, tag, "p")).unwrap_or(0),
        values: values(element, tag),
        substances: tag.children.iter().map(substance).collect(),
    }
}
