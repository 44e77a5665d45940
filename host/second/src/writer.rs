//! Writing: whether a plan can be written, its cut into pages, and the fresh pages.

use crate::plan::{present, Head, Plan, Refusal, Row, RowKind};
use crate::rules::{keeps, package_number};
use crate::table::{entry, slot, Element, Keep, Name, Rule};
use crate::value::spell;
use crate::{MOST_PAGES, MOST_ROWS, PAGE_BYTES};

/// Writes a plan as fresh pages, or answers refusal 1, 13 or 14.
pub fn write(plan: &Plan) -> Result<Vec<Vec<u8>>, Refusal> {
    if plan.rows.len() > MOST_ROWS {
        return Err(Refusal::new(1, 0, 0));
    }
    if let Some(place) = first_bad(plan) {
        return Err(Refusal::new(13, 0, place));
    }
    let cuts = cut(plan).map_err(|place| Refusal::new(14, 0, place))?;
    let page = |(at, &(from, to))| fresh_page(&plan.head, &plan.rows[from..to], at + 1, cuts.len());
    Ok(cuts.iter().enumerate().map(page).collect())
}

/// The place of refusal 13: 0 for a bad head, else the first bad row counted from 1.
fn first_bad(plan: &Plan) -> Option<usize> {
    if !good_head(&plan.head) {
        return Some(0);
    }
    plan.rows
        .iter()
        .position(|row| !good_row(row))
        .map(|at| at + 1)
}

/// Whether reading could give this head.
pub fn good_head(head: &Head) -> bool {
    let language = head.mp.get(slot(Name::MP, "l"));
    head.patch <= 99
        && language.is_some_and(|language| !language.is_empty())
        && head
            .parts()
            .into_iter()
            .all(|(element, values)| good_values(element, values))
}

/// Whether reading could give this row.
pub fn good_row(row: &Row) -> bool {
    let medication = row.kind == RowKind::M;
    let kept = good_values(row.kind.element(), &row.values);
    let numbered = row.package == 0 || medication && package_number(row.package);
    let pairs = row
        .substances
        .iter()
        .all(|pair| good_values(entry(Name::W), pair));
    let few = row.substances.len() <= if medication { entry(Name::W).most } else { 0 };
    kept && numbered && pairs && few && says_something(row)
}

/// Whether a heading has c or t, and a medication a package number, a name or a substance.
fn says_something(row: &Row) -> bool {
    match row.kind {
        RowKind::H => row.values.iter().any(|value| !value.is_empty()),
        RowKind::M => row.package != 0 || !row.value("a").is_empty() || !row.substances.is_empty(),
        RowKind::R | RowKind::X => true,
    }
}

/// Whether the slots of an element hold values that reading gives.
fn good_values(element: &Element, values: &[Vec<u8>]) -> bool {
    let there = |letter: &str| {
        element
            .slot(letter)
            .is_some_and(|slot| !values[slot].is_empty())
    };
    values.len() == element.fields.len()
        && element
            .fields
            .iter()
            .zip(values)
            .all(|(field, value)| match field.keep {
                Keep::Text if value.is_empty() => !field.must,
                Keep::Text => {
                    let zero_dose = field.rule == Rule::Dose && value == b"0";
                    let excluded = field.excludes.iter().any(|other| there(other));
                    keeps(field, value) && !zero_dose && !excluded
                }
                _ => value.is_empty(),
            })
}

/// Cuts the rows into pages: each takes as many rows as fit. Answers the beginning and
/// the end of each page, or the place of refusal 14.
fn cut(plan: &Plan) -> Result<Vec<(usize, usize)>, usize> {
    let fits = |from, to| page_fits(plan, from, to);
    if !fits(0, 0) {
        return Err(0);
    }
    let all = plan.rows.len();
    if all == 0 {
        return Ok(vec![(0, 0)]);
    }
    let mut cuts = Vec::new();
    let mut from = 0;
    while from < all {
        let mut to = from;
        while to < all && fits(from, to + 1) {
            to += 1;
        }
        if to == from || cuts.len() == MOST_PAGES {
            return Err(from + 1);
        }
        cuts.push((from, to));
        from = to;
    }
    Ok(cuts)
}

/// Whether the rows after the first `from`, up to the first `to`, fit on one page. The
/// numbers a and z have one digit each, so that it is the same for each page.
fn page_fits(plan: &Plan, from: usize, to: usize) -> bool {
    fresh_page(&plan.head, &plan.rows[from..to], 1, 1).len() <= PAGE_BYTES
}

/// Whether the first `rows` rows can be divided in their order into at most `pages`
/// pages of 1,400 bytes. Every division is tried; none is preferred. No rows at all are
/// one page with the head alone.
pub fn cut_exists(plan: &Plan, rows: usize, pages: usize) -> bool {
    if rows == 0 {
        return pages > 0 && page_fits(plan, 0, 0);
    }
    // Entry n is the fewest pages that hold the first n rows, if any number does.
    let mut fewest = vec![Some(0)];
    fewest.resize(rows + 1, None);
    for from in 0..rows {
        let Some(before) = fewest[from] else { continue };
        // A page never gets shorter by a further row, so the first too long ends the search.
        for to in (from + 1..=rows).take_while(|&to| page_fits(plan, from, to)) {
            let now = fewest[to].map_or(before + 1, |known: usize| known.min(before + 1));
            fewest[to] = Some(now);
        }
    }
    fewest[rows].is_some_and(|needed| needed <= pages)
}

/// The fresh page `number` of `count` with these rows.
pub fn fresh_page(head: &Head, rows: &[Row], number: usize, count: usize) -> Vec<u8> {
    let mut page = Vec::new();
    for (element, values) in head.parts() {
        if element.name == Name::O && values.iter().all(|value| value.is_empty()) {
            continue;
        }
        open_tag(&mut page, element, values, u32::from(head.patch));
        match element.name {
            Name::MP => page.extend(format!(" a=\"{number}\" z=\"{count}\">").bytes()),
            _ => page.extend(b"/>"),
        }
    }
    sections(&mut page, rows);
    page.extend(b"</MP>");
    page
}

/// The rows of a page. A heading row opens a new S; a page whose first row is no
/// heading opens it with `<S>`.
fn sections(page: &mut Vec<u8>, rows: &[Row]) {
    for (at, row) in rows.iter().enumerate() {
        let heading = row.kind == RowKind::H;
        if heading && at > 0 {
            page.extend(b"</S>");
        }
        if !heading && at == 0 {
            page.extend(b"<S>");
        }
        fresh_row(page, row);
    }
    if !rows.is_empty() {
        page.extend(b"</S>");
    }
}

/// One row: a heading opens its S, an M with substances is paired, all else is self-closed.
fn fresh_row(page: &mut Vec<u8>, row: &Row) {
    open_tag(page, row.kind.element(), &row.values, row.package);
    if row.kind == RowKind::H {
        page.extend(b">");
    } else if row.substances.is_empty() {
        page.extend(b"/>");
    } else {
        page.extend(b">");
        for pair in &row.substances {
            open_tag(page, entry(Name::W), pair, 0);
            page.extend(b"/>");
        }
        page.extend(b"</M>");
    }
}

/// A start tag without its end: the name, and one blank before each attribute.
fn open_tag(page: &mut Vec<u8>, element: &'static Element, values: &[Vec<u8>], number: u32) {
    page.push(b'<');
    page.extend(element.letters.bytes());
    for (letter, text) in present(element, values, number) {
        page.push(b' ');
        page.extend(letter.bytes());
        page.extend(b"=\"");
        page.extend(spell(&text));
        page.push(b'"');
    }
}
