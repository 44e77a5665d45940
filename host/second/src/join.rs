//! Reading: each page judged in the order handed in, then all joined into one plan.

use crate::page::{judge, Sheet};
use crate::plan::{Plan, Refusal};
use crate::{MOST_PAGES, MOST_ROWS};

/// Reads 1 to 9 pages as one plan, or answers the first refusal.
pub fn read(pages: &[&[u8]]) -> Result<Plan, Refusal> {
    if !(1..=MOST_PAGES).contains(&pages.len()) {
        return Err(Refusal::new(1, 0, 0));
    }
    let mut sheets = Vec::new();
    for (at, page) in pages.iter().enumerate() {
        let fault = |(number, place)| Refusal::new(number, at + 1, place);
        sheets.push(judge(page).map_err(fault)?);
    }
    join(sheets)
}

/// Joins sheets into one plan: refusals 9, 10, 11 and 12.
fn join(mut sheets: Vec<Sheet>) -> Result<Plan, Refusal> {
    let first = &sheets[0];
    if let Some(at) = sheets.iter().position(|sheet| !belongs(sheet, first)) {
        return Err(Refusal::new(9, at + 1, 0));
    }
    if let Some(at) = (0..sheets.len()).find(|&at| seen_before(&sheets, at)) {
        return Err(Refusal::new(10, at + 1, 0));
    }
    let there = |number: &usize| sheets.iter().any(|sheet| sheet.number == *number);
    if let Some(missing) = (1..=first.count).find(|number| !there(number)) {
        return Err(Refusal::new(11, missing, 0));
    }
    sheets.sort_by_key(|sheet| sheet.number);
    let head = sheets[0].head.clone();
    let rows: Vec<_> = sheets.into_iter().flat_map(|sheet| sheet.rows).collect();
    if rows.len() > MOST_ROWS {
        return Err(Refusal::new(12, 0, 0));
    }
    Ok(Plan { head, rows })
}

/// Whether a sheet has the head and the page count of the first.
pub fn belongs(sheet: &Sheet, first: &Sheet) -> bool {
    sheet.head == first.head && sheet.count == first.count
}

/// Whether the page number of this sheet was already seen.
fn seen_before(sheets: &[Sheet], at: usize) -> bool {
    sheets[..at]
        .iter()
        .any(|sheet| sheet.number == sheets[at].number)
}
