//! One comparison for each layer: what the proved code and the second program answer to the inputs of one seed. Each gives the differences in words.

use inputs::{bytes_like_page, case, raw_value, value_near, Random};
use second::class::{allowed, class};
use second::markup::well_formed;
use second::table::{Element, Field, Name, Rule, ELEMENTS};
use second::tags::{outermost, Tag};
use second::value::{read_value, spell};
use second::PAGE_BYTES;

use crate::numbers::reading_of;
use crate::Event;

/// What stands in a room before a call, and must stand there afterwards wherever nothing was laid.
const POISON: u8 = 0xA5;

/// Everything that is compared for one seed: the pages of its case; a string of markup and a page of one value; and a value near the edge of each field.
/// Tells how the pages of the case are answered: the number of their refusal, 0 for a plan.
pub fn differences(seed: u64) -> (u8, Vec<String>) {
    let mut found = Vec::new();
    let mut random = Random::new(seed ^ 0x5EED);
    let answer = set(&format!("seed {seed}"), &case(seed).pages, &mut found);
    let markup = bytes_like_page(&mut random);
    let value = [b"<v v=\"", &raw_value(&mut random)[..], b"\"/>"].concat();
    set(
        &format!("seed {seed}, markup"),
        &[markup, value],
        &mut found,
    );
    let name = |what: &str| format!("seed {seed}: {what}");
    for element in &ELEMENTS {
        for field in element.fields {
            rule(element, field, &mut random, &name, &mut found);
        }
    }
    (answer, found)
}

/// What is compared for a set of pages: each page's bytes, its markup, and its refusal of 2 to 8 with the place;
/// and the set read as one call, whose answer is told.
pub fn set(title: &str, pages: &[Vec<u8>], found: &mut Vec<String>) -> u8 {
    for (at, page) in pages.iter().enumerate() {
        let name = |what: &str| format!("{title}, page {}: {what}", at + 1);
        refused_byte(page, &name, found);
        markup(page, &name, found);
        if crate::judge(page) != second::page::judge(page).map(|_| ()) {
            found.push(name("its refusal number and place"));
        }
    }
    reading(title, pages, found)
}

/// What no seed changes: the class of every byte, and every name under every parent and in every element.
pub fn tables() -> Vec<String> {
    let classes = (0..=255)
        .filter(|&byte| crate::class(byte) != class(byte) as u8)
        .map(|byte| format!("the class of byte {byte}"));
    classes.chain(elements()).chain(fields()).collect()
}

/// The number that the proved code gives an element, and the one under which it knows that nothing is open.
fn number(name: Option<Name>) -> u8 {
    name.map_or(10, |name| name as u8 + 1)
}

/// Names that are some element's or field's, and some that are nearly one.
fn names() -> Vec<Vec<u8>> {
    let letters = ELEMENTS.iter().flat_map(|element| {
        let fields = element.fields.iter().map(|field| field.letter);
        fields.chain([element.letters])
    });
    let mut names: Vec<Vec<u8>> = letters.map(|letter| letter.as_bytes().to_vec()).collect();
    for name in names.clone() {
        names.push([&name[..], b"x"].concat());
        names.push([&name[..], b"\0"].concat());
        names.push(name[..name.len() - 1].to_vec());
        names.push(name.to_ascii_uppercase());
        names.push(name.to_ascii_lowercase());
    }
    names
}

fn elements() -> Vec<String> {
    let parents = ELEMENTS
        .iter()
        .map(|element| Some(element.name))
        .chain([None]);
    let mut found = Vec::new();
    for parent in parents {
        for name in names() {
            let expected = second::table::inside(parent, &name)
                .map_or(0, |element| number(Some(element.name)));
            if crate::child(number(parent), &name) != expected {
                found.push(format!("the element {name:?} under {parent:?}"));
            }
        }
    }
    found
}

fn fields() -> Vec<String> {
    let mut found = Vec::new();
    for element in &ELEMENTS {
        for name in names() {
            let at = element
                .fields
                .iter()
                .position(|field| field.letter.as_bytes() == name);
            let expected = at.map_or(52, |at| first(element) + at);
            if crate::field(number(Some(element.name)), &name) != expected {
                found.push(format!("the field {name:?} of {:?}", element.name));
            }
        }
    }
    found
}

/// How many fields stand before those of an element in the table.
fn first(element: &Element) -> usize {
    ELEMENTS[..element.name as usize]
        .iter()
        .map(|earlier| earlier.fields.len())
        .sum()
}

/// Refusal 3: the first byte that is not allowed.
fn refused_byte(page: &[u8], name: &dyn Fn(&str) -> String, found: &mut Vec<String>) {
    let expected = page
        .iter()
        .position(|&byte| !allowed(byte))
        .unwrap_or(page.len());
    if crate::first_refused(page) != expected {
        found.push(name("the first refused byte"));
    }
}

/// Refusal 4 with its place; and on a well-formed page every tag, attribute and value.
fn markup(page: &[u8], name: &dyn Fn(&str) -> String, found: &mut Vec<String>) {
    if page.len() > PAGE_BYTES {
        return;
    }
    let expected = well_formed(page);
    if crate::scan(page) != expected {
        return found.push(name("where it stops being well-formed"));
    }
    if expected.is_err() {
        return;
    }
    let mut events = Vec::new();
    flatten(&outermost(page), &mut events);
    if crate::walk(page) != events {
        found.push(name("its tags and attributes"));
    }
    for event in &events {
        if let Event::Attribute(_, raw) = event {
            decoded(raw, name, found);
        }
    }
}

/// An element and all that stands in it, in document order.
fn flatten<'a>(tag: &Tag<'a>, events: &mut Vec<Event<'a>>) {
    events.push(Event::Start(tag.place, tag.name));
    events.extend(
        tag.attributes
            .iter()
            .map(|&(name, raw)| Event::Attribute(name, raw)),
    );
    for child in &tag.children {
        flatten(child, events);
    }
    events.push(Event::End);
}

/// A value and its fresh spelling, and the room behind both. A number out of range is told by the byte 0.
fn decoded(raw: &[u8], name: &dyn Fn(&str) -> String, found: &mut Vec<String>) {
    let (value, rest) = crate::value(raw, POISON);
    let same = match read_value(raw) {
        Ok(expected) => value == expected,
        Err(_) => value.contains(&0),
    };
    if !same || rest.iter().any(|&byte| byte != POISON) {
        found.push(name(&format!("the value of {raw:?}")));
    }
    let (spelled, rest) = crate::spell(&value, POISON);
    if spelled != spell(&value) || rest.iter().any(|&byte| byte != POISON) {
        found.push(name(&format!("the spelling of {value:?}")));
    }
}

/// A value near the edge of a field's rule, without trailing blanks, which reading cuts.
fn rule(
    element: &Element,
    field: &Field,
    random: &mut Random,
    name: &dyn Fn(&str) -> String,
    found: &mut Vec<String>,
) {
    let mut value = value_near(&format!("{}.{}", element.letters, field.letter), random);
    while value.last() == Some(&b' ') {
        value.pop();
    }
    if value.is_empty() {
        return;
    }
    if agreed(element, field, &value).is_none() {
        found.push(name(&format!(
            "{}.{} {value:?}",
            element.letters, field.letter
        )));
    }
}

/// Whether a value keeps its field, 0 no, 1 yes, 2 it is a dose of exactly 0; nothing where the proved code and the second program differ.
pub fn agreed(element: &Element, field: &Field, value: &[u8]) -> Option<u8> {
    let at = element
        .fields
        .iter()
        .position(|other| other.letter == field.letter);
    let id = first(element) + at.expect("the field is one of its element's");
    let expected = match field.rule {
        Rule::Dose if value == b"0" => 2,
        _ => u8::from(second::rules::keeps(field, value)),
    };
    (crate::keeps(id, value) == expected).then_some(expected)
}

/// The room that document 01 names: 256 records of 48 numbers, and 12,600 bytes of text.
const ROOM: (usize, usize) = (256 * 48, 12_600);

/// The pages handed in as one call: refusal with page and place, or the plan's numbers, rows and text; and the lent rooms wherever nothing was laid.
/// Tells the number of the refusal, 0 for a plan.
fn reading(title: &str, pages: &[Vec<u8>], found: &mut Vec<String>) -> u8 {
    let buffer = pages.concat();
    let lens: Vec<usize> = pages.iter().map(Vec::len).collect();
    let starts: Vec<usize> = (0..lens.len()).map(|at| lens[..at].iter().sum()).collect();
    let given = crate::read(&buffer, &starts, &lens, ROOM, POISON);
    let slices: Vec<&[u8]> = pages.iter().map(Vec::as_slice).collect();
    let answer = second::read(&slices);
    let number = answer.as_ref().err().map_or(0, |refusal| refusal.number);
    let expected = reading_of(answer.map(|plan| second::lay(&plan)), ROOM, POISON);
    if given != expected {
        found.push(format!(
            "{title}: the set read as one call ({:?} for {:?})",
            given.refusal, expected.refusal
        ));
    }
    number
}
