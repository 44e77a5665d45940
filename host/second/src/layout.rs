//! The plan as numbers: where each value lies in a text.

use crate::plan::{empty_values, Head, Plan, Refusal, Row, RowKind, Values};
use crate::table::{entry, Name};
use crate::writer::{good_head, good_row, write};
use crate::MOST_ROWS;

/// Where a value lies in the text. It is absent exactly when the length is 0; the start
/// is then of no meaning, and the reader writes 0.
#[derive(Clone, Copy, Debug, Default, PartialEq, Eq)]
pub struct Span {
    pub start: usize,
    pub length: usize,
}

/// The spans of one element, one for each of its fields in the table's order.
pub type Spans = Vec<Span>;

/// The elements of the head, in writing order.
pub const HEAD_PARTS: [Name; 4] = [Name::MP, Name::P, Name::A, Name::O];

/// The elements that a row record has room for: the four kinds, and three substances.
pub const ROW_PARTS: [Name; 7] = [
    Name::S,
    Name::M,
    Name::R,
    Name::X,
    Name::W,
    Name::W,
    Name::W,
];

/// The part of a row record where its three substances begin.
pub const SUBSTANCES: usize = 4;

/// The head as numbers: the patch, and the spans of each of [`HEAD_PARTS`].
#[derive(Clone, Debug, PartialEq, Eq)]
pub struct HeadNumbers {
    pub patch: u8,
    pub parts: Vec<Spans>,
}

/// A row as numbers: the letter of its kind, the package number or 0, and the spans of
/// each of [`ROW_PARTS`], with 0 wherever the row has nothing.
#[derive(Clone, Debug, PartialEq, Eq)]
pub struct RowNumbers {
    pub kind: u8,
    pub package: u32,
    pub parts: Vec<Spans>,
}

/// A plan as numbers.
#[derive(Clone, Debug, PartialEq, Eq)]
pub struct Numbers {
    pub head: HeadNumbers,
    pub rows: Vec<RowNumbers>,
}

/// Spans for an element, all of them absent.
fn absent(name: Name) -> Spans {
    vec![Span::default(); entry(name).fields.len()]
}

impl RowNumbers {
    /// A row record of this kind with 0 everywhere.
    pub fn empty(kind: u8) -> RowNumbers {
        RowNumbers {
            kind,
            package: 0,
            parts: ROW_PARTS.map(absent).to_vec(),
        }
    }
}

/// The part of a row record that belongs to a kind of row.
fn part(kind: RowKind) -> usize {
    ROW_PARTS
        .iter()
        .position(|&name| name == kind.element().name)
        .expect("each kind has a part")
}

/// Lays the values of a plan into a text: head then rows, in writing order without gaps.
/// Answers the plan as numbers, and the text.
pub fn lay(plan: &Plan) -> (Numbers, Vec<u8>) {
    let mut text = Vec::new();
    let parts = plan
        .head
        .parts()
        .map(|(_, values)| lay_values(&mut text, values));
    let head = HeadNumbers {
        patch: plan.head.patch,
        parts: parts.to_vec(),
    };
    let rows = plan
        .rows
        .iter()
        .map(|row| lay_row(&mut text, row))
        .collect();
    (Numbers { head, rows }, text)
}

/// Lays the values of one row: those of its element, then its substances.
fn lay_row(text: &mut Vec<u8>, row: &Row) -> RowNumbers {
    let mut numbers = RowNumbers::empty(row.kind.letter());
    numbers.package = row.package;
    numbers.parts[part(row.kind)] = lay_values(text, &row.values);
    for (at, pair) in row.substances.iter().enumerate() {
        numbers.parts[SUBSTANCES + at] = lay_values(text, pair);
    }
    numbers
}

/// Lays the present values of one element behind the text.
fn lay_values(text: &mut Vec<u8>, values: &[Vec<u8>]) -> Spans {
    let mut spans = Vec::new();
    for value in values {
        spans.push(match value.len() {
            0 => Span::default(),
            length => Span {
                start: text.len(),
                length,
            },
        });
        text.extend(value);
    }
    spans
}

/// The bytes a span names in a text, or nothing if it points outside. An absent value is
/// empty wherever its start is.
pub fn bytes_of(text: &[u8], span: Span) -> Option<&[u8]> {
    if span.length == 0 {
        return Some(&[]);
    }
    let end = span.start.checked_add(span.length)?;
    text.get(span.start..end)
}

/// The values that spans name, if there are as many as the element has fields and none
/// points outside the text.
fn values_of(text: &[u8], name: Name, spans: &[Span]) -> Option<Values> {
    if spans.len() != entry(name).fields.len() {
        return None;
    }
    let value = |span: &Span| bytes_of(text, *span).map(|bytes| bytes.to_vec());
    spans.iter().map(value).collect()
}

/// The head that numbers name, if it is one that reading gives.
fn head_of(text: &[u8], numbers: &HeadNumbers) -> Option<Head> {
    let mut head = Head {
        patch: numbers.patch,
        ..Head::empty()
    };
    if numbers.parts.len() != HEAD_PARTS.len() {
        return None;
    }
    for (name, spans) in HEAD_PARTS.into_iter().zip(&numbers.parts) {
        *head.part_mut(name)? = values_of(text, name, spans)?;
    }
    good_head(&head).then_some(head)
}

/// The row that a row record names, if it is one that reading gives: a known kind,
/// nothing that the kind does not have, and no gap among the substances.
fn row_of(text: &[u8], numbers: &RowNumbers) -> Option<Row> {
    let kind = RowKind::ALL
        .into_iter()
        .find(|kind| kind.letter() == numbers.kind)?;
    if numbers.parts.len() != ROW_PARTS.len() {
        return None;
    }
    let mut row = Row {
        package: numbers.package,
        ..Row::empty(kind)
    };
    for (at, (name, spans)) in ROW_PARTS.into_iter().zip(&numbers.parts).enumerate() {
        let values = values_of(text, name, spans)?;
        if at == part(kind) {
            row.values = values;
        } else if values != empty_values(name) {
            let next = SUBSTANCES + row.substances.len();
            let pair = (at == next).then_some(values)?;
            row.substances.push(pair.try_into().ok()?);
        }
    }
    good_row(&row).then_some(row)
}

/// The plan of values that numbers over a lent text name, or refusal 13 with its place.
/// The values may lie anywhere in the text.
pub fn plan_of(text: &[u8], numbers: &Numbers) -> Result<Plan, Refusal> {
    let bad = |place| Refusal::new(13, 0, place);
    let head = head_of(text, &numbers.head).ok_or(bad(0))?;
    let row = |(at, row)| row_of(text, row).ok_or(bad(at + 1));
    let rows: Result<Vec<Row>, Refusal> = numbers.rows.iter().enumerate().map(row).collect();
    Ok(Plan { head, rows: rows? })
}

/// Writes the plan that numbers over a lent text name, or answers refusal 1, 13 or 14.
pub fn write_numbers(text: &[u8], numbers: &Numbers) -> Result<Vec<Vec<u8>>, Refusal> {
    if numbers.rows.len() > MOST_ROWS {
        return Err(Refusal::new(1, 0, 0));
    }
    write(&plan_of(text, numbers)?)
}
