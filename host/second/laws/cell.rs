//! The law of plancell: a cell is what the listing of the same sheets, or the catalogue's text, shows of it.

use super::{demand, number_of, Answers, Verdict, REFUSED_WITH_1};
use inputs::cell::{cell_input, limit};
use second::{plancell, planlist, refusal_lines};

const LONGEST_CATALOGUE: usize = 1_000;

/// The lines of a medication in a listing that cells show, by the number of the field.
const KEYS: [&str; 9] = [
    "MP.S.M.a=",
    "MP.S.M.W.w=",
    "MP.S.M.W.s=",
    "MP.S.M.fd=",
    "MP.S.M.m=",
    "MP.S.M.d=",
    "MP.S.M.v=",
    "MP.S.M.h=",
    "MP.S.M.t=",
];

/// Tries the law on the input of one seed, and counts the answers.
pub fn check(seed: u64, answers: &mut Answers) -> Verdict {
    plancell_prints_what_planlist_shows(&cell_input(seed), answers)
}

/// The row, the field and which of three, the catalogue's text and the pages of an input, if it has all of them.
fn asked(input: &[u8]) -> Option<([usize; 3], &[u8], &[u8])> {
    let parts: Vec<&[u8]> = input.splitn(5, |byte| *byte == 0).collect();
    let [row, field, which, catalogue, pages] = parts[..] else {
        return None;
    };
    let number = |text| number_of(text).map(|number| number as usize);
    let numbers = [number(row)?, number(field)?, number(which)?];
    (catalogue.len() <= LONGEST_CATALOGUE).then_some((numbers, catalogue, pages))
}

/// The value behind a key on one of some lines; empty if there is none.
fn value<'a>(lines: &[&'a [u8]], key: &str) -> &'a [u8] {
    let mut values = lines.iter().map(|line| line.strip_prefix(key.as_bytes()));
    values.find_map(|value| value).unwrap_or_default()
}

/// The plan's own text for a cell, by the lines of its row, which are its own and then those of each substance; nothing if there is no such cell.
fn own_text<'a>(row: &[&'a [u8]], field: usize, which: usize) -> Option<&'a [u8]> {
    let key = KEYS.get(field.checked_sub(1)?)?;
    let mut substances = row.chunk_by(|_, next| !next.starts_with(KEYS[1].as_bytes()));
    match field {
        2 | 3 if !(1..=3).contains(&which) => None,
        2 | 3 => Some(value(substances.nth(which).unwrap_or_default(), key)),
        _ => Some(value(row, key)),
    }
}

/// The lines of a cell by the lines of a listing and the catalogue's text, with what is counted of it; nothing if there is no such cell.
fn listed_cell(
    listing: &[u8],
    [row, field, which]: [usize; 3],
    catalogue: &[u8],
) -> Option<(&'static str, Vec<u8>)> {
    let lines: Vec<&[u8]> = listing.split(|byte| *byte == b'\n').collect();
    // The rows stand behind the head.
    let mut rows = lines.chunk_by(|_, next| !next.starts_with(b"row="));
    let row = rows.nth(row).filter(|row| row[0] == b"row=M")?;
    let own = own_text(row, field, which)?;
    let time = |key: &&str| !value(row, key).is_empty();
    let zero = (5..=8).contains(&field) && own.is_empty() && KEYS[4..8].iter().any(time);
    let (source, whole) = match limit(field) {
        _ if !own.is_empty() => (1, own),
        Some(_) if !catalogue.is_empty() => (2, catalogue),
        _ => (0, own),
    };
    let shown = limit(field).map_or(whole.len(), |limit| shown_length(whole, limit));
    let left = whole.len() - shown;
    let what = match source {
        1 => "plancell shows the plan's text",
        2 if left > 0 => "plancell cuts the catalogue's text",
        2 => "plancell shows the catalogue's text",
        _ if zero => "plancell prints 0",
        _ => "plancell shows nothing",
    };
    let [cut, zero] = [left > 0, zero].map(u8::from);
    let lines = format!("source={source}\ncut={cut}\nleft={left}\nzero={zero}\ntext=");
    Some((what, [lines.as_bytes(), &whole[..shown], b"\n"].concat()))
}

/// How many bytes of a text a cell with this limit shows.
fn shown_length(text: &[u8], limit: usize) -> usize {
    if text.len() <= limit {
        return text.len();
    }
    let most = limit - 3;
    let mut places = (1..most).rev().take(10);
    places.find(|place| text[*place] == b' ').unwrap_or(most)
}

/// Plancell prints the cell that planlist's lines show, or planlist's refusal, or 1 where nothing is asked or there is no such cell.
fn plancell_prints_what_planlist_shows(input: &[u8], answers: &mut Answers) -> Verdict {
    let one = refusal_lines(&REFUSED_WITH_1);
    let (what, right) = match asked(input) {
        None => ("plancell refuses what is asked", one),
        Some((numbers, catalogue, pages)) => match planlist(pages) {
            listing if listing.starts_with(b"refused=") => ("plancell refuses pages", listing),
            listing => listed_cell(&listing, numbers, catalogue)
                .unwrap_or(("plancell refuses the cell", one)),
        },
    };
    *answers.entry(what).or_default() += 1;
    let printed = plancell(input);
    demand(printed == right, || {
        format!("plancell prints {}", printed.escape_ascii())
    })
}
