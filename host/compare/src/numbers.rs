//! A plan in numbers as the proved code has it, and as the second program has it.

use second::layout::{HeadNumbers, Numbers, RowNumbers, Span, HEAD_PARTS, ROW_PARTS, SUBSTANCES};
use second::table::entry;
use second::Refusal;

use crate::Reading;

/// The numbers of a row's record.
pub const RECORD: usize = 48;

/// How many of a record's 19 spans belong to the row itself, not to its substances.
pub const OWN: usize = 13;

fn numbers_of(spans: &[Span]) -> impl Iterator<Item = u32> + '_ {
    spans
        .iter()
        .flat_map(|span| [span.start as u32, span.length as u32])
}

fn spans_of(numbers: &[u32]) -> Vec<Span> {
    let pairs = numbers.chunks(2);
    pairs
        .map(|pair| Span {
            start: pair[0] as usize,
            length: pair[1] as usize,
        })
        .collect()
}

/// The patch, the number of rows, and the 27 spans of the head: U and l of MP, then P, A and O.
pub fn head(numbers: &Numbers) -> Vec<u32> {
    let parts = &numbers.head.parts;
    let spans = [&parts[0][2..4], &parts[1], &parts[2], &parts[3]].concat();
    let first = [u32::from(numbers.head.patch), numbers.rows.len() as u32];
    first.into_iter().chain(numbers_of(&spans)).collect()
}

/// A row's record: its kind, its package number, its spans, and 0 up to 48 numbers. The package number's field has no span.
pub fn record(row: &RowNumbers) -> Vec<u32> {
    let (kind, own) = match row.kind {
        b'H' => (1, &row.parts[0][..]),
        b'M' => (2, &row.parts[1][1..]),
        b'R' => (3, &row.parts[2][..]),
        _ => (4, &row.parts[3][..]),
    };
    let mut record = vec![kind, row.package];
    record.extend(numbers_of(own));
    for part in &row.parts[SUBSTANCES..] {
        if kind == 2 {
            record.extend(numbers_of(part));
        }
    }
    record.resize(RECORD, 0);
    record
}

/// What reading into rooms of so many numbers and bytes, which held `poison`, must give for an answer of the second program.
pub fn reading_of(
    answer: Result<(Numbers, Vec<u8>), Refusal>,
    room: (usize, usize),
    poison: u8,
) -> Reading {
    let mut reading = Reading {
        refusal: [0; 3],
        head: vec![0; 56],
        rows: vec![poison.into(); room.0],
        text: vec![poison; room.1],
    };
    match answer {
        Err(Refusal {
            number,
            page,
            place,
        }) => reading.refusal = [number.into(), page as u32, place as u32],
        Ok((numbers, text)) => {
            let rows: Vec<u32> = numbers.rows.iter().flat_map(record).collect();
            reading.head = head(&numbers);
            reading.rows[..rows.len()].copy_from_slice(&rows);
            reading.text[..text.len()].copy_from_slice(&text);
        }
    }
    reading
}

/// The head of a patch and 27 spans. No patch above 99 is right, so that one above 255 may stand as 255.
pub fn head_of(patch: u32, numbers: &[u32]) -> HeadNumbers {
    let mut parts: Vec<Vec<Span>> = HEAD_PARTS
        .iter()
        .map(|&name| vec![Span::default(); entry(name).fields.len()])
        .collect();
    let spans = spans_of(numbers);
    parts[0][2..4].copy_from_slice(&spans[..2]);
    parts[1].copy_from_slice(&spans[2..10]);
    parts[2].copy_from_slice(&spans[10..20]);
    parts[3].copy_from_slice(&spans[20..]);
    HeadNumbers {
        patch: patch.min(255) as u8,
        parts,
    }
}

/// The row of a record. Spans that its kind does not have stand where another kind's are, and a kind that there is not has no letter.
pub fn row_of(record: &[u32]) -> RowNumbers {
    let (part, letter) = match record[0] {
        1 => (0, b'H'),
        2 => (1, b'M'),
        3 => (2, b'R'),
        4 => (3, b'X'),
        _ => (1, 0),
    };
    let mut row = RowNumbers::empty(letter);
    row.package = record[1];
    let spans = spans_of(&record[2..40]);
    let own = match part {
        1 => OWN,
        _ => entry(ROW_PARTS[part]).fields.len(),
    };
    for (at, span) in spans.iter().enumerate() {
        let place = match at {
            at if at >= OWN => (SUBSTANCES + (at - OWN) / 2, (at - OWN) % 2),
            // The package number's field of M has no span.
            at if part == 1 || at >= own => (1, at + 1),
            at => (part, at),
        };
        row.parts[place.0][place.1] = *span;
    }
    row
}
