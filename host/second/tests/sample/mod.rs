//! What the tests share: small pages, and answers as plain triples.

// Each test file uses a part of this one.
#![allow(dead_code)]

use second::{Plan, Refusal};

/// The instance number of the small pages.
pub const U: &str = "00112233445566778899AABBCCDDEEFF";
/// A person with the fields that must be present.
pub const P: &str = r#"<P g="Ida" f="Kern" b="19510704"/>"#;
/// A printing surgery with the fields that must be present.
pub const A: &str = r#"<A n="Praxis Holm" t="2023-03-01T09:30:00"/>"#;

/// The bytes of a text whose marks are all below 256.
pub fn bytes(text: &str) -> Vec<u8> {
    text.chars()
        .map(|mark| u8::try_from(u32::from(mark)).expect("a mark below 256"))
        .collect()
}

/// A page with these further attributes of MP and this inside it.
pub fn mp(more: &str, inside: &str) -> String {
    format!(r#"<MP v="027" U="{U}"{more}>{inside}</MP>"#)
}

/// A page with the least head and this behind it.
pub fn page(rest: &str) -> String {
    mp("", &format!("{P}{A}{rest}"))
}

/// Page a of z with the least head and this behind it.
pub fn numbered(a: usize, z: usize, rest: &str) -> String {
    mp(&format!(r#" a="{a}" z="{z}""#), &format!("{P}{A}{rest}"))
}

/// The place where a piece of a page begins.
pub fn place_of(page: &str, piece: &str) -> usize {
    bytes(&page[..page.find(piece).expect("the page has this piece")]).len()
}

/// The answer to pages: the plan or the refusal.
pub fn read(pages: &[&str]) -> Result<Plan, Refusal> {
    let pages: Vec<Vec<u8>> = pages.iter().map(|page| bytes(page)).collect();
    let pages: Vec<&[u8]> = pages.iter().map(|page| page.as_slice()).collect();
    second::read(&pages)
}

/// The plan of one page that must read.
pub fn plan(page: &str) -> Plan {
    read(&[page]).unwrap_or_else(|refusal| panic!("{refusal:?} for {page}"))
}

/// A refusal as number, page and place; 0, 0, 0 for an answer that is none.
pub fn triple<T>(answer: Result<T, Refusal>) -> (u8, usize, usize) {
    match answer {
        Ok(_) => (0, 0, 0),
        Err(refusal) => (refusal.number, refusal.page, refusal.place),
    }
}

/// Number and place of the refusal of a single page; 0, 0 if it reads.
pub fn fault(page: &str) -> (u8, usize) {
    let (number, _, place) = triple(read(&[page]));
    (number, place)
}

/// The attributes that an element of a small page has at least.
fn least(element: &str) -> Vec<(&'static str, &'static str)> {
    match element {
        "MP" => vec![("v", "027"), ("U", U)],
        "P" => vec![("g", "Ida"), ("f", "Kern"), ("b", "19510704")],
        "A" => vec![("n", "Praxis Holm"), ("t", "2023-03-01T09:30:00")],
        "M" => vec![("p", "2394428")],
        "W" => vec![("w", "Ramipril")],
        "R" | "X" => vec![("t", "Salbe")],
        _ => vec![],
    }
}

/// A start tag without its end, with the least attributes but those given in `set`,
/// which take their place; an attribute set to "-" is left out.
fn tag(element: &str, changed: &str, set: &[(&str, &str)]) -> String {
    let set = if element == changed { set } else { &[] };
    let mut tag = format!("<{element}");
    for (letter, value) in least(element) {
        if !set.iter().any(|(other, _)| *other == letter) {
            tag += &format!(r#" {letter}="{value}""#);
        }
    }
    for (letter, value) in set.iter().filter(|(_, value)| *value != "-") {
        tag += &format!(r#" {letter}="{value}""#);
    }
    tag
}

/// A page that holds the element, with these attributes of it set. An attribute set to
/// "-" is left out.
pub fn with(element: &str, set: &[(&str, &str)]) -> String {
    let tag = |name: &str| tag(name, element, set);
    let rest = match element {
        "O" => format!("{}/>", tag("O")),
        "S" => format!("{}></S>", tag("S")),
        "M" | "R" | "X" => format!("<S>{}/></S>", tag(element)),
        "W" => format!("<S>{}>{}/></M></S>", tag("M"), tag("W")),
        _ => String::new(),
    };
    format!("{}>{}/>{}/>{rest}</MP>", tag("MP"), tag("P"), tag("A"))
}

/// Whether the listing of a page has this line.
pub fn lists(page: &str, line: &str) -> bool {
    let listing = second::listing(&plan(page));
    let line = bytes(line);
    listing.split(|&byte| byte == 10).any(|other| other == line)
}
