//! The listing of a plan, the three lines of a refusal, and the programs planlist,
//! planfresh, planfind and plancell.

use crate::cell::cell_of;
use crate::index::find;
use crate::join::read;
use crate::plan::{present, Plan, Refusal};
use crate::table::{entry, Element, Name};
use crate::writer::write;
use crate::{CATALOGUE_BYTES, INPUT_BYTES};

/// The listing: the present head fields, then each row with its fields, then the row count.
pub fn listing(plan: &Plan) -> Vec<u8> {
    let mut lines = Vec::new();
    for (element, values) in plan.head.parts() {
        field_lines(&mut lines, element, values, u32::from(plan.head.patch));
    }
    for row in &plan.rows {
        line(&mut lines, "row", &[row.kind.letter()]);
        field_lines(&mut lines, row.kind.element(), &row.values, row.package);
        for pair in &row.substances {
            field_lines(&mut lines, entry(Name::W), pair, 0);
        }
    }
    number_line(&mut lines, "rows", plan.rows.len());
    lines
}

/// The lines of the present fields of one element.
fn field_lines(lines: &mut Vec<u8>, element: &'static Element, values: &[Vec<u8>], number: u32) {
    for (letter, text) in present(element, values, number) {
        line(lines, &format!("{}{letter}", element.key), &text);
    }
}

/// One line `key=value`, ended by byte 10.
fn line(lines: &mut Vec<u8>, key: &str, value: &[u8]) {
    lines.extend(key.bytes());
    lines.push(b'=');
    lines.extend(value);
    lines.push(10);
}

/// One line `key=number`.
fn number_line(lines: &mut Vec<u8>, key: &str, number: usize) {
    line(lines, key, number.to_string().as_bytes());
}

/// The three lines of a refusal.
pub fn refusal_lines(refusal: &Refusal) -> Vec<u8> {
    let mut lines = Vec::new();
    number_line(&mut lines, "refused", refusal.number.into());
    number_line(&mut lines, "page", refusal.page);
    number_line(&mut lines, "place", refusal.place);
    lines
}

/// The pages of planlist's input: of its first 12,609 bytes, what stands between the
/// zero bytes. No bytes at all are one empty page.
pub fn split(input: &[u8]) -> Vec<&[u8]> {
    let looked_at = &input[..input.len().min(INPUT_BYTES)];
    looked_at.split(|&byte| byte == 0).collect()
}

/// What planlist prints for this input: the listing, or the three lines of the refusal.
pub fn planlist(input: &[u8]) -> Vec<u8> {
    match read(&split(input)) {
        Ok(plan) => listing(&plan),
        Err(refusal) => refusal_lines(&refusal),
    }
}

/// What planfresh prints for this input, which is split as planlist's: the fresh pages with
/// one zero byte between them, or the three lines of the refusal.
pub fn planfresh(input: &[u8]) -> Vec<u8> {
    match read(&split(input)).and_then(|plan| write(&plan)) {
        Ok(pages) => pages.join(&0),
        Err(refusal) => refusal_lines(&refusal),
    }
}

/// The bytes before the first zero byte of an input, and those behind it; nothing if it has
/// no zero byte.
fn text_and_rest(input: &[u8]) -> Option<(&[u8], &[u8])> {
    let zero = input.iter().position(|&byte| byte == 0)?;
    Some((&input[..zero], &input[zero + 1..]))
}

/// The number before the first zero byte of an input, one to eight digits, and the bytes
/// behind that zero byte; nothing if the input does not begin so.
fn number_and_rest(input: &[u8]) -> Option<(u32, &[u8])> {
    let (digits, rest) = text_and_rest(input)?;
    let right = (1..=8).contains(&digits.len()) && digits.iter().all(u8::is_ascii_digit);
    let digit = |number: u32, digit: &u8| number * 10 + u32::from(digit - b'0');
    right.then(|| (digits.iter().fold(0, digit), rest))
}

/// What planfind prints for this input, a package number, a zero byte, and then pages as
/// planlist takes them: how many rows hold the number, and each of them; or the three lines
/// of the refusal, which is 1 for an input that does not begin with a number.
pub fn planfind(input: &[u8]) -> Vec<u8> {
    let Some((number, pages)) = number_and_rest(input) else {
        return refusal_lines(&Refusal::new(1, 0, 0));
    };
    match find(&split(pages), number) {
        Ok(rows) => {
            let mut lines = Vec::new();
            number_line(&mut lines, "held", rows.len());
            for row in rows {
                number_line(&mut lines, "row", row);
            }
            lines
        }
        Err(refusal) => refusal_lines(&refusal),
    }
}

/// What plancell's input asks for: the numbers of the row and of the field and which of
/// three, the catalogue's text, and the bytes that hold the pages.
struct Asked<'a> {
    numbers: [u32; 3],
    catalogue: &'a [u8],
    pages: &'a [u8],
}

/// What this input asks for; nothing if it does not begin with three numbers and a
/// catalogue's text of at most 1,000 bytes, each with a zero byte behind it.
fn asked(input: &[u8]) -> Option<Asked<'_>> {
    let (row, rest) = number_and_rest(input)?;
    let (field, rest) = number_and_rest(rest)?;
    let (which, rest) = number_and_rest(rest)?;
    let (catalogue, pages) = text_and_rest(rest)?;
    (catalogue.len() <= CATALOGUE_BYTES).then_some(Asked {
        numbers: [row, field, which],
        catalogue,
        pages,
    })
}

/// What plancell prints for this input, which asks for a cell before pages as planlist
/// takes them: whose text it shows, whether "..." follows, how many bytes are left out,
/// whether 0 is printed, and the text; or the three lines of the refusal, which is 1 for an
/// input that does not ask.
pub fn plancell(input: &[u8]) -> Vec<u8> {
    let Some(asked) = asked(input) else {
        return refusal_lines(&Refusal::new(1, 0, 0));
    };
    let [row, field, which] = asked.numbers.map(|number| number as usize);
    match cell_of(&split(asked.pages), asked.catalogue, row, field, which) {
        Ok(cell) => {
            let mut lines = Vec::new();
            number_line(&mut lines, "source", cell.source as usize);
            number_line(&mut lines, "cut", cell.dots.into());
            number_line(&mut lines, "left", cell.left_out);
            number_line(&mut lines, "zero", cell.zero.into());
            line(&mut lines, "text", &cell.text);
            lines
        }
        Err(refusal) => refusal_lines(&refusal),
    }
}
