//! The index of package numbers: which rows of a plan hold a number.

use crate::join::read;
use crate::layout::{lay, RowNumbers};
use crate::plan::{Refusal, RowKind};
use crate::{MOST_PAIRS, MOST_ROWS};

/// One entry of an index: a package number, and a row, counted from 1, that holds it.
/// Pairs are ordered by number, equal numbers by row.
#[derive(Clone, Copy, Debug, PartialEq, Eq, PartialOrd, Ord)]
pub struct Pair {
    pub number: u32,
    pub row: usize,
}

/// What a question is asked of: the rows lent, how many of them count, the pairs lent,
/// and how many of them are the index.
#[derive(Clone, Copy, Debug)]
pub struct Lent<'a> {
    pub rows: &'a [RowNumbers],
    pub row_count: usize,
    pub pairs: &'a [Pair],
    pub index_length: usize,
}

/// The first row that holds a number, and how many rows do.
#[derive(Clone, Copy, Debug, PartialEq, Eq)]
pub struct Held {
    pub first: usize,
    pub count: usize,
}

/// The k-th of the rows that hold a number: this row; none, if k is 0 or above their
/// count; or absent, if the number is not on the plan.
#[derive(Clone, Copy, Debug, PartialEq, Eq)]
pub enum Kth {
    Row(usize),
    None,
    Absent,
}

/// The index of rows: one pair for each medication row with a package number. A row of
/// another kind is not in it, whatever number it holds.
pub fn index_of(rows: &[RowNumbers]) -> Vec<Pair> {
    let mut index = Vec::new();
    for (at, row) in rows.iter().enumerate() {
        if row.kind == RowKind::M.letter() && row.package != 0 {
            index.push(Pair {
                number: row.package,
                row: at + 1,
            });
        }
    }
    index.sort();
    index
}

/// The rows that hold a number, ascending. No row holds the number 0.
fn rows_with(rows: &[RowNumbers], number: u32) -> Vec<usize> {
    let held = |pair: &Pair| (pair.number == number).then_some(pair.row);
    index_of(rows).iter().filter_map(held).collect()
}

/// The rows that count, or refusal 1 for a count above 256 or above the rows lent.
fn counted(rows: &[RowNumbers], count: usize) -> Result<&[RowNumbers], Refusal> {
    match rows.get(..count) {
        Some(rows) if count <= MOST_ROWS => Ok(rows),
        _ => Err(Refusal::new(1, 0, 0)),
    }
}

/// Builds the index of so many of the rows lent into room for so many pairs.
pub fn build(rows: &[RowNumbers], count: usize, pair_room: usize) -> Result<Vec<Pair>, Refusal> {
    let rows = counted(rows, count)?;
    if pair_room < MOST_PAIRS {
        return Err(Refusal::new(1, 0, 0));
    }
    Ok(index_of(rows))
}

impl Lent<'_> {
    /// All rows that hold a number, ascending; none if it is not on the plan. Refusal 1
    /// for more rows or pairs than lent or more rows than 256, then 20 for an index that
    /// is not exactly the index of the rows.
    pub fn all(&self, number: u32) -> Result<Vec<usize>, Refusal> {
        let rows = counted(self.rows, self.row_count)?;
        let asked = self.pairs.get(..self.index_length);
        let asked = asked.ok_or(Refusal::new(1, 0, 0))?;
        if asked != index_of(rows) {
            return Err(Refusal::new(20, 0, 0));
        }
        Ok(rows_with(rows, number))
    }

    /// The first row that holds a number, and how many do; nothing if it is not on the
    /// plan.
    pub fn held(&self, number: u32) -> Result<Option<Held>, Refusal> {
        let rows = self.all(number)?;
        let held = |first: &usize| Held {
            first: *first,
            count: rows.len(),
        };
        Ok(rows.first().map(held))
    }

    /// The k-th of the rows that hold a number, k counted from 1.
    pub fn kth(&self, number: u32, k: usize) -> Result<Kth, Refusal> {
        let rows = self.all(number)?;
        if rows.is_empty() {
            return Ok(Kth::Absent);
        }
        let row = k.checked_sub(1).and_then(|at| rows.get(at));
        Ok(row.map_or(Kth::None, |row| Kth::Row(*row)))
    }
}

/// The rows of the plan that pages show which hold a number, or the refusal of reading.
pub fn find(pages: &[&[u8]], number: u32) -> Result<Vec<usize>, Refusal> {
    let (numbers, _) = lay(&read(pages)?);
    Ok(rows_with(&numbers.rows, number))
}
