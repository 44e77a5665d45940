//! Plans whose fresh pages are full to the last byte, or have one byte more or less; and heads that are about as long as a page.

use crate::plan::{row, Element, Plan, Shape, Value};
use crate::random::Random;
use crate::spelling::LONGEST_PAGE;
use crate::values::{Fullness, Ink};

/// The bytes of the shortest note, `<X t="a"/>`, and the longest text of a note.
const NOTE: usize = 10;
const LONGEST_NOTE: usize = 200;

/// The rows of a page after which only long notes follow, so that nine pages have less than 256 rows.
const MOST_ON_PAGE: usize = 20;

/// The bytes of `<S>` and `</S>`, which a page needs whose first row is no heading.
const SECTION: usize = 7;

/// The bytes of a value on a fresh page.
fn escaped(value: &[u8]) -> usize {
    let bytes = value.iter().map(|byte| match byte {
        b'&' => "&amp;".len(),
        b'<' => "&lt;".len(),
        b'"' => "&quot;".len(),
        _ => 1,
    });
    bytes.sum()
}

/// The bytes of a start tag on a fresh page, without its end.
fn tag(element: &Element) -> usize {
    let attributes = element.attributes.iter().map(|attribute| {
        let value = element
            .meant(&attribute.name)
            .map_or(0, |value| escaped(value));
        attribute.name.len() + value + " =\"\"".len()
    });
    1 + element.name.len() + attributes.sum::<usize>()
}

/// The bytes that a row adds to a fresh page; a heading brings the end of its section with it.
fn row_size(row: &Element) -> usize {
    let inside: usize = row
        .children
        .iter()
        .map(|child| tag(child) + "/>".len())
        .sum();
    match (row.name.as_str(), inside) {
        ("S", _) => tag(row) + "></S>".len(),
        (_, 0) => tag(row) + "/>".len(),
        _ => tag(row) + inside + "></M>".len(),
    }
}

/// The bytes of a fresh page without rows.
fn head_size(plan: &Plan) -> usize {
    let people: usize = plan
        .people
        .iter()
        .map(|person| tag(person) + "/>".len())
        .sum();
    tag(&plan.mp) + " a=\"1\" z=\"1\">".len() + people + "</MP>".len()
}

/// A note that adds so many bytes, at least [`NOTE`], to a page.
fn note(size: usize, random: &mut Random) -> Element {
    let bytes = size + 1 - NOTE;
    let quotes = random.below(bytes / "&quot;".len() + 1);
    let letters = bytes - "&quot;".len() * quotes;
    let text = [vec![b'"'; quotes], vec![b'a'; letters]].concat();
    let mut note = Element::new("X");
    note.set("t", Value::Meant(text));
    note
}

/// Fills one page from its first row on; the last row makes it full, or at times a byte longer or shorter.
fn fill_page(room: usize, shape: Shape, rows: &mut Vec<Element>, random: &mut Random) {
    let first = row(shape, random);
    let opened = if first.name == "S" { 0 } else { SECTION };
    let Some(mut room) = room.checked_sub(opened + row_size(&first)) else {
        return;
    };
    rows.push(first);
    let mut placed = 1;
    while room > NOTE + LONGEST_NOTE - 1 {
        let mut another = row(shape, random);
        if placed > MOST_ON_PAGE || row_size(&another) + NOTE > room {
            another = note((room - NOTE).min(NOTE + LONGEST_NOTE - 1), random);
        }
        room -= row_size(&another);
        rows.push(another);
        placed += 1;
    }
    match random.below(10) {
        0 if room < NOTE + LONGEST_NOTE - 1 => room += 1,
        1 => room = room.saturating_sub(1),
        _ => {}
    }
    if room >= NOTE {
        rows.push(note(room, random));
    }
}

/// As many rows as fill some pages, often nine or ten.
pub(crate) fn filled_plan(random: &mut Random) -> Plan {
    let fullness = Fullness {
        ink: *random.pick(&[Ink::Plain, Ink::Mixed]),
        longest: *random.pick(&[0, 5]),
        usual: *random.pick(&[8, 30]),
    };
    let shape = Shape {
        rows: 0,
        optional: *random.pick(&[5, 30]),
        head: Fullness {
            longest: 0,
            ..fullness
        },
        row: fullness,
    };
    let mut plan = Plan::random(shape, random);
    let room = LONGEST_PAGE.saturating_sub(head_size(&plan));
    for _ in 0..*random.pick(&[1, 2, 8, 9, 9, 9, 10]) {
        fill_page(room, shape, &mut plan.rows, random);
    }
    if random.chance(30) {
        plan.rows.push(note(NOTE, random));
    }
    plan
}

/// A head that makes a page without rows about as long as a page may be, and at times a row or two.
pub(crate) fn long_head(random: &mut Random) -> Plan {
    let full = Fullness {
        ink: Ink::Quotes,
        longest: 100,
        usual: 1,
    };
    let small = Fullness {
        ink: Ink::Plain,
        longest: 0,
        usual: 3,
    };
    let shape = Shape {
        rows: random.below(3),
        optional: 95,
        head: full,
        row: small,
    };
    let mut plan = Plan::random(shape, random);
    let away = *random.pick(&[0, 0, 1, 2, 7, 16, 17, 18, 20, 60]);
    let target = match random.chance(25) {
        true => LONGEST_PAGE + 1 + away,
        false => LONGEST_PAGE - away,
    };
    shorten(&mut plan, target);
    plan
}

/// Makes free texts of the head shorter, first by turning quotes to letters, until a page without rows has so many bytes.
fn shorten(plan: &mut Plan, target: usize) {
    let texts = [
        ("P", "g"),
        ("P", "f"),
        ("A", "n"),
        ("A", "e"),
        ("O", "ai"),
        ("A", "s"),
    ];
    for step in ["&quot;".len() - 1, 1] {
        for (name, letter) in texts {
            let more = head_size(plan).saturating_sub(target) / step;
            let person = plan.people.iter_mut().find(|person| person.name == name);
            let Some(person) = person.filter(|person| person.has(letter)) else {
                continue;
            };
            let mut text = person.meant(letter).cloned().unwrap_or_default();
            if step > 1 {
                let quotes = text.iter_mut().filter(|byte| **byte == b'"');
                quotes.take(more).for_each(|byte| *byte = b'a');
            } else {
                let plain = text.iter().take_while(|byte| **byte == b'a').count();
                text.drain(..more.min(plain).min(text.len() - 1));
            }
            person.set(letter, Value::Meant(text));
        }
    }
}

#[cfg(test)]
mod tests {
    use super::*;

    #[test]
    fn a_note_has_the_size_asked_for() {
        let mut random = Random::new(3);
        for size in NOTE..NOTE + LONGEST_NOTE {
            assert_eq!(row_size(&note(size, &mut random)), size);
        }
    }

    #[test]
    fn heads_come_out_at_the_length_of_a_page() {
        let size = |seed| head_size(&long_head(&mut Random::new(seed)));
        let full = (0..500).filter(|seed| size(*seed) == LONGEST_PAGE).count();
        assert!(full > 20, "{full}");
    }
}
