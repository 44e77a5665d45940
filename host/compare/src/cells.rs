//! The text of printed cells, of plans in numbers of any kind.

use inputs::cell::{catalogue, cell_text, limit, LIMITS};
use inputs::vectors::{CellVector, ShownCell, Source};
use inputs::{Numbers, Random};
use second::cell::{cell, Cell};
use second::table::{slot, Name};

use crate::indexing::Tally;
use crate::numbers::{row_of, OWN, RECORD};
use crate::writing;

mod border {
    extern "C" {
        #[allow(clippy::too_many_arguments)]
        pub fn probe_cell_text(
            rows: *const u32,
            rows_length: usize,
            count: usize,
            text: *const u8,
            text_length: usize,
            catalogue: *const u8,
            catalogue_length: usize,
            row: usize,
            field: u32,
            which: usize,
            out: *mut u8,
            room: usize,
        ) -> u64;
        #[allow(clippy::too_many_arguments)]
        pub fn probe_cell(
            rows: *const u32,
            rows_length: usize,
            count: usize,
            text: *const u8,
            text_length: usize,
            catalogue: *const u8,
            catalogue_length: usize,
            row: usize,
            field: u32,
            which: usize,
            told: *mut [usize; 6],
        ) -> u32;
    }
}

/// How many cells are asked for in the plan of one seed.
const CELLS: u64 = 20;

/// Which cell is asked for.
#[derive(Clone, Copy, Debug)]
struct Asked {
    count: usize,
    row: usize,
    field: u32,
    which: usize,
}

/// Which buffer a text is a part of, where it begins there and how long it is; 0 and 0 with neither.
#[derive(Clone, Copy, Debug, PartialEq, Eq)]
enum Part {
    Plan(usize, usize),
    Catalogue(usize, usize),
    Neither(usize, usize),
}

/// What is answered of a cell: the number of its refusal, its text and where that comes from, whether "..." follows or 0 is printed, and how many bytes are
/// left out.
#[derive(Debug, PartialEq, Eq)]
struct Shown {
    refusal: u32,
    text: Vec<u8>,
    part: Part,
    dots: bool,
    zero: bool,
    left_out: usize,
}

impl Shown {
    /// What is counted of an answer.
    fn what(&self, asked: Asked) -> String {
        let cut = match limit(asked.field as usize) {
            _ if self.refusal != 0 => return "refused".to_string(),
            _ if !self.dots => "whole",
            Some(limit) if self.text.len() < limit - 3 => "cut before a blank",
            _ => "cut",
        };
        match self.part {
            Part::Plan(..) => format!("own, {cut}"),
            Part::Catalogue(..) => format!("catalogue's, {cut}"),
            Part::Neither(..) => format!("neither, {cut}"),
        }
    }

    /// The same as a vector has it, which does not say where in its buffer a text begins.
    fn as_vector(&self) -> Result<ShownCell, [usize; 3]> {
        if self.refusal != 0 {
            return Err([self.refusal as usize, 0, 0]);
        }
        Ok(ShownCell {
            text: self.text.clone(),
            source: match self.part {
                Part::Plan(..) => Source::Plan,
                Part::Catalogue(..) => Source::Catalogue,
                Part::Neither(..) => Source::None,
            },
            cut: self.dots,
            zero: self.zero,
            left_out: self.left_out,
        })
    }
}

/// The text that the proved code shows.
fn text_of(rows: &[u32], text: &[u8], catalogue: &[u8], asked: Asked) -> Vec<u8> {
    let mut out = vec![0; text.len().max(catalogue.len())];
    // SAFETY: each pair of a start and a length is one slice; the last is written within its length.
    let length = unsafe {
        border::probe_cell_text(
            rows.as_ptr(),
            rows.len(),
            asked.count,
            text.as_ptr(),
            text.len(),
            catalogue.as_ptr(),
            catalogue.len(),
            asked.row,
            asked.field,
            asked.which,
            out.as_mut_ptr(),
            out.len(),
        )
    };
    out.truncate(length as usize);
    out
}

/// What the proved code shows.
fn proved(rows: &[u32], text: &[u8], catalogue: &[u8], asked: Asked) -> Shown {
    let mut told = [usize::MAX; 6];
    // SAFETY: each pair of a start and a length is one slice, which is only read; the six numbers are written.
    let refusal = unsafe {
        border::probe_cell(
            rows.as_ptr(),
            rows.len(),
            asked.count,
            text.as_ptr(),
            text.len(),
            catalogue.as_ptr(),
            catalogue.len(),
            asked.row,
            asked.field,
            asked.which,
            &mut told,
        )
    };
    let [source, at, len, dots, zero, left_out] = told;
    Shown {
        refusal,
        text: text_of(rows, text, catalogue, asked),
        part: match source {
            1 => Part::Plan(at, len),
            2 => Part::Catalogue(at, len),
            _ => Part::Neither(at, len),
        },
        dots: dots != 0,
        zero: zero != 0,
        left_out,
    }
}

/// Where a cell's text lies in its buffer.
fn part_of(cell: &Cell<&[u8]>, text: &[u8], catalogue: &[u8]) -> Part {
    let behind = |buffer: &[u8]| cell.text.as_ptr() as usize - buffer.as_ptr() as usize;
    let length = cell.text.len();
    match cell.source {
        second::cell::Source::Neither => Part::Neither(0, length),
        second::cell::Source::Plan => Part::Plan(behind(text), length),
        second::cell::Source::Catalogue => Part::Catalogue(behind(catalogue), length),
    }
}

/// What the second program shows; a refused cell has no text and no mark, and nothing is left out.
fn second(rows: &[u32], text: &[u8], catalogue: &[u8], asked: Asked) -> Shown {
    let records = rows.chunks_exact(RECORD).take(asked.count);
    let there: Vec<_> = records.map(row_of).collect();
    let field = asked.field as usize;
    match cell(&there, text, catalogue, asked.row, field, asked.which) {
        Ok(cell) => Shown {
            refusal: 0,
            text: cell.text.to_vec(),
            part: part_of(&cell, text, catalogue),
            dots: cell.dots,
            zero: cell.zero,
            left_out: cell.left_out,
        },
        Err(refusal) => Shown {
            refusal: refusal.number.into(),
            text: Vec::new(),
            part: Part::Neither(0, 0),
            dots: false,
            zero: false,
            left_out: 0,
        },
    }
}

/// Every byte turned to another one, but with blanks, by which a cell is cut, where they were and nowhere else.
fn turned(bytes: &[u8]) -> Vec<u8> {
    let turn = |byte: &u8| match byte {
        b' ' => b' ',
        0xDF => 0,
        other => !other,
    };
    bytes.iter().map(turn).collect()
}

/// Mostly a cell of a medication, at times of another row or of none.
fn asked(numbers: &Numbers, random: &mut Random) -> Asked {
    let count = numbers.count as usize;
    let records = numbers.rows.chunks_exact(RECORD).enumerate();
    let mut rows: Vec<usize> = records
        .filter(|(_, record)| record[0] == 2)
        .map(|(at, _)| at + 1)
        .collect();
    let lent = numbers.rows.len() / RECORD;
    if rows.is_empty() || random.chance(10) {
        rows = vec![
            random.between(1, lent.max(1)),
            0,
            count,
            lent,
            lent + 1,
            usize::MAX,
        ];
    }
    Asked {
        count: match random.chance(85) {
            true => count,
            false => *random.pick(&[lent, lent, 0, 1, usize::MAX]),
        },
        row: *random.pick(&rows),
        field: match random.chance(92) {
            true => random.between(1, 9) as u32,
            false => *random.pick(&[0, 10, 11, 256, 257, u32::MAX]),
        },
        which: match random.chance(85) {
            true => random.between(1, 3),
            false => *random.pick(&[0, 4, 5, usize::MAX]),
        },
    }
}

/// The spans of a medication's record whose values are cut, with their limits: name and form, then the three substances and strengths.
fn limited() -> Vec<(usize, usize)> {
    let [name, substance, strength, form] = LIMITS;
    // The package number's field of M has no span.
    let own = [("a", name), ("fd", form)].map(|(letter, limit)| (slot(Name::M, letter) - 1, limit));
    let three = (0..3).flat_map(|at| [(OWN + 2 * at, substance), (OWN + 2 * at + 1, strength)]);
    own.into_iter().chain(three).collect()
}

/// Gives some values of medications other ranges of the text: longer than their limit, beside a value that excludes them, or outside the text; and some a
/// text of their own behind it, with blanks where it may be cut.
fn stir(numbers: &mut Numbers, random: &mut Random) {
    let limited = limited();
    let end = numbers.text.len();
    let records = numbers.rows.chunks_exact_mut(RECORD);
    for record in records.filter(|record| record[0] == 2) {
        while random.chance(60) {
            let start = random.below(end + 1);
            let left = end - start;
            let lengths = [0, 1, 4, 7, 8, 15, 16, 50, 51, 80, 81, left, left + 1];
            set(record, random.below(19), start, *random.pick(&lengths));
        }
        while random.chance(80) {
            let (span, limit) = *random.pick(&limited);
            let value = cell_text(limit, random);
            set(record, span, numbers.text.len(), value.len());
            numbers.text.extend(value);
        }
    }
}

/// Lets a span of a record name a range of the text.
fn set(record: &mut [u32], span: usize, start: usize, length: usize) {
    record[2 + 2 * span..][..2].copy_from_slice(&[start as u32, length as u32]);
}

/// Cells of the plan of this seed: what differs, and how often each answer was given.
pub fn differences(seed: u64, tally: &mut Tally) -> Vec<String> {
    let mut random = Random::new(seed ^ 0xCE11);
    let mut found = Vec::new();
    let mut numbers = inputs::numbers(seed);
    if random.chance(50) {
        stir(&mut numbers, &mut random);
    }
    for _ in 0..CELLS {
        let asked = asked(&numbers, &mut random);
        let catalogue = catalogue(asked.field as usize, &mut random);
        let title = format!("seed {seed}, {}", numbers.what);
        let what = compared(&title, &numbers, &catalogue, asked, &mut found);
        *tally.entry(what).or_default() += 1;
    }
    found
}

/// Every cell of a plan's first twenty rows, with a catalogue's text that is longer than any limit, of one word, of many or of blanks alone, and without.
pub fn all(title: &str, numbers: &Numbers) -> Vec<String> {
    let catalogues = [
        (1, vec![b'k'; 90]),
        (2, Vec::new()),
        (3, vec![b'k'; 7]),
        (1, b"kkkkk ".repeat(15)),
        (2, b"k  kk".repeat(18)),
        (3, vec![b' '; 90]),
    ];
    let mut found = Vec::new();
    let count = numbers.count as usize;
    for (row, field) in (1..=count.min(20)).flat_map(|row| (1..=9).map(move |field| (row, field))) {
        for (which, catalogue) in &catalogues {
            let asked = Asked {
                count,
                row,
                field,
                which: *which,
            };
            compared(title, numbers, catalogue, asked, &mut found);
        }
    }
    found
}

/// A vector: the cell of its pages' plan, which must be just what it says.
pub fn vector(vector: &CellVector) -> Vec<String> {
    let title = format!("line {}", vector.line);
    let mut found = Vec::new();
    let pages: Vec<&[u8]> = vector.pages.iter().map(Vec::as_slice).collect();
    let numbers = match second::read(&pages) {
        Ok(plan) => writing::lent(&plan),
        Err(refusal) => return vec![format!("{title}: refused with {refusal:?}")],
    };
    let asked = Asked {
        count: numbers.count as usize,
        row: vector.row,
        field: vector.field as u32,
        which: vector.which,
    };
    compared(&title, &numbers, &vector.catalogue, asked, &mut found);
    let given = proved(&numbers.rows, &numbers.text, &vector.catalogue, asked).as_vector();
    if given != vector.shown {
        found.push(format!("{title}: {given:?} for {:?}", vector.shown));
    }
    found
}

/// What is counted of a cell. Compared is what is answered. Which buffer the text is a part of is seen by turning the bytes of the one or the other, too.
fn compared(
    title: &str,
    numbers: &Numbers,
    catalogue: &[u8],
    asked: Asked,
    found: &mut Vec<String>,
) -> String {
    let (rows, text) = (&numbers.rows, &numbers.text);
    let given = proved(rows, text, catalogue, asked);
    let expected = second(rows, text, catalogue, asked);
    let other_text = text_of(rows, &turned(text), catalogue, asked);
    let other_catalogue = text_of(rows, text, &turned(catalogue), asked);
    let from = match expected.part {
        Part::Neither(..) => other_text == given.text && other_catalogue == given.text,
        Part::Catalogue(..) => other_text == given.text && other_catalogue == turned(&given.text),
        Part::Plan(..) => other_text == turned(&given.text) && other_catalogue == given.text,
    };
    if given != expected || !from {
        found.push(format!("{title}, {asked:?}: {given:?} for {expected:?}"));
    }
    given.what(asked)
}
