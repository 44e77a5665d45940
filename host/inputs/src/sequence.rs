//! Sequences for a collector: pages of one plan among pages spelled again, of a second print, of another cut or plan, damaged, or handed in twice, with
//! readings and clearings between them.

use crate::case::{any_plan, fitting_plan, full_plan, many_rows, sheets};
use crate::damage;
use crate::garbage::bytes_like_page;
use crate::plan::{Element, Value};
use crate::random::Random;
use crate::spelling::{self, Manner};

/// One thing that is asked of a collector.
#[derive(Clone, Debug, PartialEq)]
pub enum Step {
    /// To take the page that a start and a length name in a buffer.
    Add {
        buffer: Vec<u8>,
        start: usize,
        length: usize,
    },
    /// To read into room for so many rows and so many bytes of text.
    Read { rows: usize, text: usize },
    /// To become empty.
    Clear,
}

/// The pages that a sequence draws from.
struct Pages {
    /// The sheets of one plan, and their pages, spelled twice.
    sheets: Vec<Element>,
    print: Vec<Vec<u8>>,
    again: Vec<Vec<u8>>,
    /// The same plan with one value of its head changed, in the same cut; and unchanged in another cut.
    second: Vec<Vec<u8>>,
    other_cut: Vec<Vec<u8>>,
    foreign: Vec<Vec<u8>>,
}

/// The sequence of this seed.
pub fn sequence(seed: u64) -> Vec<Step> {
    let mut random = Random::new(seed ^ 0xC011);
    let pages = pages(&mut random);
    let mut steps = Vec::new();
    for _ in 0..*random.pick(&[1, 1, 1, 2]) {
        round(&pages, &mut steps, &mut random);
        steps.push(reading(&mut random));
        if random.chance(60) {
            steps.push(Step::Clear);
        }
    }
    steps
}

/// The pages of one print in any order, each with something else before it at times. A page may be left out.
fn round(pages: &Pages, steps: &mut Vec<Step>, random: &mut Random) {
    let mut order: Vec<usize> = (0..pages.print.len()).collect();
    random.shuffle(&mut order);
    if random.chance(25) {
        order.pop();
    }
    for place in order {
        while random.chance(35) {
            steps.push(something_else(pages, random));
        }
        steps.push(add(pages.print[place].clone(), random));
    }
    while random.chance(40) {
        steps.push(something_else(pages, random));
    }
}

fn something_else(pages: &Pages, random: &mut Random) -> Step {
    let page = match random.below(10) {
        0 | 1 => random.pick(&pages.print).clone(),
        2 | 3 => random.pick(&pages.again).clone(),
        4 => random.pick(&pages.second).clone(),
        5 => random.pick(&pages.other_cut).clone(),
        6 => random.pick(&pages.foreign).clone(),
        7 if random.chance(40) => damaged(&pages.print, random),
        7 => damaged_sheet(&pages.sheets, random),
        8 => return reading(random),
        _ if random.chance(30) => return Step::Clear,
        _ => bytes_like_page(random),
    };
    add(page, random)
}

fn damaged(pages: &[Vec<u8>], random: &mut Random) -> Vec<u8> {
    let mut page = random.pick(pages).clone();
    let harm = *random.pick(&[damage::bytes, damage::forbidden_byte, damage::size]);
    harm(&mut page, random);
    page
}

/// A page with damage to its elements.
fn damaged_sheet(sheets: &[Element], random: &mut Random) -> Vec<u8> {
    let mut sheet = random.pick(sheets).clone();
    let harm = *random.pick(&[
        damage::near_miss,
        damage::bad_reference,
        damage::excluded_pair,
        damage::attribute,
        damage::missing_field,
        damage::element,
        damage::substances,
        damage::version,
        damage::numbering,
        damage::head,
    ]);
    harm(&mut sheet, random);
    spelling::page(&sheet, Manner::random(random), random)
}

/// The page alone, or somewhere in a buffer; now and then a range that lies outside.
fn add(page: Vec<u8>, random: &mut Random) -> Step {
    let around = random.chance(30);
    let [before, behind] = [0; 2].map(|least| if around { random.between(least, 9) } else { 0 });
    let (start, length) = (before, page.len());
    let buffer = [vec![b'<'; before], page, vec![b' '; behind]].concat();
    let (start, length) = match random.below(60) {
        0 => (start, buffer.len() - start + 1),
        1 => (buffer.len() + 1, 0),
        2 => (usize::MAX, length),
        3 => (start, usize::MAX),
        4 => (buffer.len(), 0),
        5 => (start + 1, length),
        _ => (start, length),
    };
    Step::Add {
        buffer,
        start,
        length,
    }
}

/// Mostly with the room that a reader must be lent, at times with a row or a byte less or more.
fn reading(random: &mut Random) -> Step {
    Step::Read {
        rows: *random.pick(&[256, 256, 256, 256, 256, 255, 257, 0]),
        text: *random.pick(&[12_600, 12_600, 12_600, 12_600, 12_600, 12_599, 12_601, 0]),
    }
}

fn pages(random: &mut Random) -> Pages {
    let make = *random.pick(&[any_plan, any_plan, any_plan, full_plan, many_rows]);
    let plan = fitting_plan(make, random);
    let manner = Manner::random(random);
    let print = sheets(&plan, manner, random);
    let other_cut = sheets(&plan, manner, random);
    let foreign = fitting_plan(any_plan, random);
    let foreign = sheets(&foreign, manner, random);
    Pages {
        second: spelled(&second_print(&print, random), random),
        again: spelled(&print, random),
        other_cut: spelled(&other_cut, random),
        foreign: spelled(&foreign, random),
        print: spelled(&print, random),
        sheets: print,
    }
}

fn spelled(sheets: &[Element], random: &mut Random) -> Vec<Vec<u8>> {
    let manner = Manner::random(random);
    let spell = |sheet| spelling::page(sheet, manner, random);
    sheets.iter().map(spell).collect()
}

/// The same pages with another moment, another patch, or another identity in their heads.
fn second_print(sheets: &[Element], random: &mut Random) -> Vec<Element> {
    let (person, letter, value) = *random.pick(&[
        (Some("A"), "t", "2023-03-01T09:30:01"),
        (Some("A"), "n", "Praxis Holm II"),
        (Some("P"), "b", "19510705"),
        (None, "p", "98"),
        (None, "l", "de-CH"),
        (None, "U", "00112233445566778899AABBCCDDEEFF"),
    ]);
    let change = |sheet: &Element| {
        let mut sheet = sheet.clone();
        let element = match person {
            None => &mut sheet,
            Some(name) => sheet
                .children
                .iter_mut()
                .find(|child| child.name == name)
                .expect("each page has a P and an A"),
        };
        element.set(letter, Value::Meant(value.as_bytes().to_vec()));
        sheet
    };
    sheets.iter().map(change).collect()
}

#[cfg(test)]
mod tests {
    use super::*;

    #[test]
    fn one_seed_gives_one_sequence() {
        assert!((0..50).all(|seed| sequence(seed) == sequence(seed)));
    }

    #[test]
    fn sequences_add_read_and_clear() {
        let steps: Vec<Step> = (0..200).flat_map(sequence).collect();
        let reads = steps
            .iter()
            .filter(|step| matches!(step, Step::Read { .. }));
        let clears = steps.iter().filter(|step| matches!(step, Step::Clear));
        let (reads, clears) = (reads.count(), clears.count());
        assert!(reads > 200 && clears > 50 && reads + clears < steps.len() / 2);
    }
}
