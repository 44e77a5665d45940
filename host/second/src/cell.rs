//! The text of a printed cell: the plan's own, else the catalogue's, cut to its limit.

use crate::join::read;
use crate::layout::{bytes_of, lay, RowNumbers, Span, SUBSTANCES};
use crate::plan::{Refusal, RowKind};
use crate::table::{slot, Name, TIMES};

/// Whose a cell's text is; an empty one is nobody's.
#[derive(Clone, Copy, Debug, PartialEq, Eq)]
pub enum Source {
    Neither = 0,
    Plan = 1,
    Catalogue = 2,
}

/// A cell: its text and whose that is, whether "..." follows, whether 0 is printed for an
/// absent time of day, and how many bytes of the whole text are left out.
#[derive(Clone, Copy, Debug, PartialEq, Eq)]
pub struct Cell<Text> {
    pub text: Text,
    pub source: Source,
    pub dots: bool,
    pub zero: bool,
    pub left_out: usize,
}

/// What a cell may show.
#[derive(Clone, Copy, Debug, PartialEq, Eq)]
enum Sort {
    /// A field of the M; the catalogue stands in, and the cell is cut to the limit.
    Named(usize),
    /// A field of one of the three W, likewise.
    OfThree(usize),
    /// One of the four times of day, never cut.
    Time,
    /// The dose as free text, never cut.
    FreeDose,
}

/// The cells, numbered from 1: each shows the field with this letter.
const CELLS: [(Name, &str, Sort); 9] = [
    (Name::M, "a", Sort::Named(50)),
    (Name::W, "w", Sort::OfThree(80)),
    (Name::W, "s", Sort::OfThree(15)),
    (Name::M, "fd", Sort::Named(7)),
    (Name::M, "m", Sort::Time),
    (Name::M, "d", Sort::Time),
    (Name::M, "v", Sort::Time),
    (Name::M, "h", Sort::Time),
    (Name::M, "t", Sort::FreeDose),
];

/// The part of a row record that holds the M.
const MEDICATION: usize = 1;

/// The byte that stands between words.
const BLANK: u8 = 32;

/// How many of the last bytes may hold the blank before which a text is cut.
const REACH: usize = 10;

/// The cell numbers: name, substance, strength, form, morning, noon, evening, night, and
/// the dose as free text.
pub const NAME: usize = 1;
pub const SUBSTANCE: usize = 2;
pub const STRENGTH: usize = 3;
pub const FORM: usize = 4;
pub const MORNING: usize = 5;
pub const NOON: usize = 6;
pub const EVENING: usize = 7;
pub const NIGHT: usize = 8;
pub const FREE_DOSE: usize = 9;

/// The cell of a row counted from 1, its text a part of the plan's or the catalogue's.
/// `which` is 1 to 3 for substance and strength and has no meaning for other cells.
/// Refusal 1 for a row or cell that does not exist, and for a value that lies outside the
/// text.
pub fn cell<'a>(
    rows: &[RowNumbers],
    text: &'a [u8],
    catalogue: &'a [u8],
    row: usize,
    field: usize,
    which: usize,
) -> Result<Cell<&'a [u8]>, Refusal> {
    show(rows, text, catalogue, row, field, which).ok_or(Refusal::new(1, 0, 0))
}

/// A cell of the plan that pages show, or the refusal of reading.
pub fn cell_of(
    pages: &[&[u8]],
    catalogue: &[u8],
    row: usize,
    field: usize,
    which: usize,
) -> Result<Cell<Vec<u8>>, Refusal> {
    let (numbers, text) = lay(&read(pages)?);
    let cell = cell(&numbers.rows, &text, catalogue, row, field, which)?;
    Ok(Cell {
        text: cell.text.to_vec(),
        source: cell.source,
        dots: cell.dots,
        zero: cell.zero,
        left_out: cell.left_out,
    })
}

/// The cell, or nothing where refusal 1 is due.
fn show<'a>(
    rows: &[RowNumbers],
    text: &'a [u8],
    catalogue: &'a [u8],
    row: usize,
    field: usize,
    which: usize,
) -> Option<Cell<&'a [u8]>> {
    let row = rows.get(row.checked_sub(1)?)?;
    let (name, letter, sort) = *CELLS.get(field.checked_sub(1)?)?;
    let part = match sort {
        Sort::OfThree(_) if !(1..=3).contains(&which) => return None,
        Sort::OfThree(_) => SUBSTANCES + which - 1,
        _ => MEDICATION,
    };
    if row.kind != RowKind::M.letter() {
        return None;
    }
    let span = span_of(row, part, slot(name, letter))?;
    match sort {
        Sort::Named(limit) | Sort::OfThree(limit) => Some(match bytes_of(text, span)? {
            [] => cut(catalogue, Source::Catalogue, limit),
            own => cut(own, Source::Plan, limit),
        }),
        Sort::Time => time(row, text, span),
        Sort::FreeDose => Some(whole(bytes_of(text, span)?, Source::Plan)),
    }
}

/// The first bytes of a text. If that is not all of it, "..." follows.
fn first(text: &[u8], source: Source, shown: usize) -> Cell<&[u8]> {
    Cell {
        text: &text[..shown],
        source: match shown {
            0 => Source::Neither,
            _ => source,
        },
        dots: shown < text.len(),
        zero: false,
        left_out: text.len() - shown,
    }
}

/// All of a text.
fn whole(text: &[u8], source: Source) -> Cell<&[u8]> {
    first(text, source, text.len())
}

/// A text, cut if it is longer than its limit: before the blank that ends its last word in
/// the first n - 3 bytes, or behind all of these.
fn cut(text: &[u8], source: Source, limit: usize) -> Cell<&[u8]> {
    if text.len() <= limit {
        return whole(text, source);
    }
    let most = limit - 3;
    first(text, source, word_end(&text[..most]).unwrap_or(most))
}

/// The place of the last blank, if it is one of the last ten bytes and not the very first.
fn word_end(bytes: &[u8]) -> Option<usize> {
    let place = bytes.iter().rposition(|&byte| byte == BLANK)?;
    (place > 0 && bytes.len() - place <= REACH).then_some(place)
}

/// The span in one slot of a row record.
fn span_of(row: &RowNumbers, part: usize, slot: usize) -> Option<Span> {
    row.parts.get(part)?.get(slot).copied()
}

/// A time of day. A row with a free text dose has no times; an absent time is empty, with
/// the mark that 0 is printed if another time is there.
fn time<'a>(row: &RowNumbers, text: &'a [u8], span: Span) -> Option<Cell<&'a [u8]>> {
    let there = |letter: &str| {
        let span = span_of(row, MEDICATION, slot(Name::M, letter));
        span.is_some_and(|span| span.length > 0)
    };
    if there("t") {
        return Some(whole(&[], Source::Neither));
    }
    let another = TIMES.iter().any(|letter| there(letter));
    Some(Cell {
        zero: span.length == 0 && another,
        ..whole(bytes_of(text, span)?, Source::Plan)
    })
}
