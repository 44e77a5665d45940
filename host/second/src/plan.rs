//! The plan as values: its head, its rows, and the refusal that stands in its place.

use crate::table::{entry, slot, Element, Keep, Name, EDITION};

/// The values of one element, one slot for each of its fields in the table's order.
/// An empty slot is an absent value. Fields that are not kept as text have an empty slot.
pub type Values = Vec<Vec<u8>>;

/// The head: MP without a and z, and P, A, O. A head without O has only empty slots there.
#[derive(Clone, Debug, PartialEq, Eq)]
pub struct Head {
    pub patch: u8,
    pub mp: Values,
    pub p: Values,
    pub a: Values,
    pub o: Values,
}

/// The four kinds of row: heading, medication, recipe, note.
#[derive(Clone, Copy, Debug, PartialEq, Eq)]
pub enum RowKind {
    H,
    M,
    R,
    X,
}

/// One row. Its values are those of the element it came from; the package number is 0
/// where there is none; the substances are pairs of substance and strength.
#[derive(Clone, Debug, PartialEq, Eq)]
pub struct Row {
    pub kind: RowKind,
    pub package: u32,
    pub values: Values,
    pub substances: Vec<[Vec<u8>; 2]>,
}

/// A plan: two are the same when heads and rows agree as values.
#[derive(Clone, Debug, PartialEq, Eq)]
pub struct Plan {
    pub head: Head,
    pub rows: Vec<Row>,
}

/// A refusal: number, page and place.
#[derive(Clone, Debug, PartialEq, Eq)]
pub struct Refusal {
    pub number: u8,
    pub page: usize,
    pub place: usize,
}

impl Refusal {
    /// The refusal with this number, page and place.
    pub fn new(number: u8, page: usize, place: usize) -> Refusal {
        Refusal {
            number,
            page,
            place,
        }
    }
}

/// Slots for an element, all of them empty.
pub fn empty_values(name: Name) -> Values {
    vec![Vec::new(); entry(name).fields.len()]
}

impl RowKind {
    /// The four kinds in the order document 01 names them.
    pub const ALL: [RowKind; 4] = [RowKind::H, RowKind::M, RowKind::R, RowKind::X];

    /// The element that a row of this kind comes from.
    pub fn element(self) -> &'static Element {
        entry(match self {
            RowKind::H => Name::S,
            RowKind::M => Name::M,
            RowKind::R => Name::R,
            RowKind::X => Name::X,
        })
    }

    /// The letter of the kind in a listing.
    pub fn letter(self) -> u8 {
        match self {
            RowKind::H => b'H',
            RowKind::M => b'M',
            RowKind::R => b'R',
            RowKind::X => b'X',
        }
    }
}

impl Head {
    /// A head without any value.
    pub fn empty() -> Head {
        Head {
            patch: 0,
            mp: empty_values(Name::MP),
            p: empty_values(Name::P),
            a: empty_values(Name::A),
            o: empty_values(Name::O),
        }
    }

    /// The four elements of the head with their values, in writing order.
    pub fn parts(&self) -> [(&'static Element, &Values); 4] {
        [
            (entry(Name::MP), &self.mp),
            (entry(Name::P), &self.p),
            (entry(Name::A), &self.a),
            (entry(Name::O), &self.o),
        ]
    }

    /// The values of one element of the head, to be changed.
    pub fn part_mut(&mut self, name: Name) -> Option<&mut Values> {
        match name {
            Name::MP => Some(&mut self.mp),
            Name::P => Some(&mut self.p),
            Name::A => Some(&mut self.a),
            Name::O => Some(&mut self.o),
            _ => None,
        }
    }
}

impl Row {
    /// A row of this kind without any value.
    pub fn empty(kind: RowKind) -> Row {
        Row {
            kind,
            package: 0,
            values: empty_values(kind.element().name),
            substances: Vec::new(),
        }
    }

    /// The value of the field with this letter; empty if it is absent.
    pub fn value(&self, letter: &str) -> &[u8] {
        &self.values[slot(self.kind.element().name, letter)]
    }
}

/// The present fields of an element in writing order, a and z left out, each with its
/// text. The edition is always 027. The number is the patch or the package number, for an
/// element that has one, and is absent when it is 0.
pub fn present<'a>(
    element: &'static Element,
    values: &'a [Vec<u8>],
    number: u32,
) -> impl Iterator<Item = (&'static str, Vec<u8>)> + 'a {
    let slots = element.fields.iter().zip(values);
    slots.filter_map(move |(field, value)| {
        let text = match field.keep {
            Keep::Text => value.clone(),
            Keep::Number if number != 0 => number.to_string().into_bytes(),
            Keep::Edition => EDITION.as_bytes().to_vec(),
            Keep::Number | Keep::Page => Vec::new(),
        };
        (!text.is_empty()).then_some((field.letter, text))
    })
}
