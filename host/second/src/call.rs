//! The calls with lent rooms: pages as ranges of one buffer, and refusal 1.

use crate::cell::{cell_of, Cell};
use crate::collector::{Answer, Collector};
use crate::index::{find, index_of, Pair};
use crate::join::read;
use crate::layout::{lay, write_numbers, HeadNumbers, Numbers, RowNumbers};
use crate::listing::listing;
use crate::plan::Refusal;
use crate::writer::write;
use crate::{CELL_ROOM, LISTING_ROOM, MOST_PAGES, MOST_PAIRS, MOST_ROWS, PAGE_ROOM, TEXT_ROOM};

/// Refusal 1, which has neither page nor place.
fn one() -> Refusal {
    Refusal::new(1, 0, 0)
}

/// The part of a buffer that a start and a length name, if it lies within.
fn range(buffer: &[u8], start: usize, length: usize) -> Option<&[u8]> {
    buffer.get(start..start.checked_add(length)?)
}

/// The pages that starts and lengths name in a buffer, or refusal 1.
pub fn pages_of<'a>(
    buffer: &'a [u8],
    starts: &[usize],
    lengths: &[usize],
) -> Result<Vec<&'a [u8]>, Refusal> {
    if starts.len() != lengths.len() || !(1..=MOST_PAGES).contains(&starts.len()) {
        return Err(one());
    }
    let both = starts.iter().zip(lengths);
    both.map(|(&start, &length)| range(buffer, start, length).ok_or(one()))
        .collect()
}

/// Reads pages into lent room for so many rows and so many bytes of text: the plan as
/// numbers, and the text laid out.
pub fn read_call(
    buffer: &[u8],
    starts: &[usize],
    lengths: &[usize],
    row_room: usize,
    text_room: usize,
) -> Result<(Numbers, Vec<u8>), Refusal> {
    let pages = pages_of(buffer, starts, lengths)?;
    if row_room < MOST_ROWS || text_room < TEXT_ROOM {
        return Err(one());
    }
    read(&pages).map(|plan| lay(&plan))
}

/// A plan laid out, with its index, into room for so many pairs beside the reader's. Too
/// little room for pairs is told with the reader's own room, before any page.
fn indexed(
    pair_room: usize,
    reading: impl FnOnce() -> Result<(Numbers, Vec<u8>), Refusal>,
) -> Result<(Numbers, Vec<u8>, Vec<Pair>), Refusal> {
    if pair_room < MOST_PAIRS {
        return Err(one());
    }
    let (numbers, text) = reading()?;
    let index = index_of(&numbers.rows);
    Ok((numbers, text, index))
}

/// Reads pages as [`read_call`] does, and builds the index with the plan.
pub fn read_indexed_call(
    buffer: &[u8],
    starts: &[usize],
    lengths: &[usize],
    row_room: usize,
    text_room: usize,
    pair_room: usize,
) -> Result<(Numbers, Vec<u8>, Vec<Pair>), Refusal> {
    indexed(pair_room, || {
        read_call(buffer, starts, lengths, row_room, text_room)
    })
}

/// Finds the rows that hold a package number in the plan of pages, into a lent list with
/// room for so many row numbers.
pub fn find_call(
    buffer: &[u8],
    starts: &[usize],
    lengths: &[usize],
    number: u32,
    list_room: usize,
) -> Result<Vec<usize>, Refusal> {
    let pages = pages_of(buffer, starts, lengths)?;
    if list_room < MOST_ROWS {
        return Err(one());
    }
    find(&pages, number)
}

/// Shows a cell of the plan of pages, which row, field and which of three name, with this
/// catalogue, into lent room.
pub fn cell_call(
    buffer: &[u8],
    starts: &[usize],
    lengths: &[usize],
    catalogue: &[u8],
    [row, field, which]: [usize; 3],
    text_room: usize,
) -> Result<Cell<Vec<u8>>, Refusal> {
    let pages = pages_of(buffer, starts, lengths)?;
    if text_room < CELL_ROOM {
        return Err(one());
    }
    cell_of(&pages, catalogue, row, field, which)
}

/// Lists pages into lent room.
pub fn listing_call(
    buffer: &[u8],
    starts: &[usize],
    lengths: &[usize],
    listing_room: usize,
) -> Result<Vec<u8>, Refusal> {
    let pages = pages_of(buffer, starts, lengths)?;
    if listing_room < LISTING_ROOM {
        return Err(one());
    }
    read(&pages).map(|plan| listing(&plan))
}

/// Reads pages and writes them as fresh pages into lent room: the pages one behind the
/// other, and their lengths.
pub fn fresh_call(
    buffer: &[u8],
    starts: &[usize],
    lengths: &[usize],
    page_room: usize,
) -> Result<(Vec<u8>, Vec<usize>), Refusal> {
    let pages = pages_of(buffer, starts, lengths)?;
    if page_room < PAGE_ROOM {
        return Err(one());
    }
    write(&read(&pages)?).map(|pages| one_behind_the_other(&pages))
}

/// Writes a plan of which so many of the lent rows count, over a lent text, into lent
/// room: the pages one behind the other, and their lengths.
pub fn write_call(
    head: &HeadNumbers,
    rows_lent: &[RowNumbers],
    row_count: usize,
    text: &[u8],
    page_room: usize,
) -> Result<(Vec<u8>, Vec<usize>), Refusal> {
    if page_room < PAGE_ROOM || row_count > MOST_ROWS {
        return Err(one());
    }
    let rows = rows_lent.get(..row_count).ok_or(one())?.to_vec();
    let numbers = Numbers {
        head: head.clone(),
        rows,
    };
    write_numbers(text, &numbers).map(|pages| one_behind_the_other(&pages))
}

/// Adds the page that a start and a length name in a buffer to a collector.
pub fn add_call(collector: &mut Collector, buffer: &[u8], start: usize, length: usize) -> Answer {
    match range(buffer, start, length) {
        Some(page) => collector.add(page),
        None => Answer::Refused(one()),
    }
}

/// Reads a collector into lent room, as [`read_call`] does.
pub fn collector_call(
    collector: &Collector,
    row_room: usize,
    text_room: usize,
) -> Result<(Numbers, Vec<u8>), Refusal> {
    if row_room < MOST_ROWS || text_room < TEXT_ROOM {
        return Err(one());
    }
    collector.read().map(|plan| lay(&plan))
}

/// Reads a collector as [`collector_call`] does, and builds the index with the plan.
pub fn collector_indexed_call(
    collector: &Collector,
    row_room: usize,
    text_room: usize,
    pair_room: usize,
) -> Result<(Numbers, Vec<u8>, Vec<Pair>), Refusal> {
    indexed(pair_room, || collector_call(collector, row_room, text_room))
}

/// Pages one behind the other, and their lengths.
fn one_behind_the_other(pages: &[Vec<u8>]) -> (Vec<u8>, Vec<usize>) {
    (
        pages.concat(),
        pages.iter().map(|page| page.len()).collect(),
    )
}
