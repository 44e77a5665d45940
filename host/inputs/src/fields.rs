//! The table of fields as the generator knows it: element, letter, rule, and which fields exclude each other.

/// What a field's value must look like.
#[derive(Clone, Copy, Debug, PartialEq)]
pub enum Rule {
    /// The version, always 027.
    Version,
    /// The patch, 0 to 99.
    Patch,
    /// The plan's identity: 32 digits or capitals A to F.
    Identity,
    /// Two small letters, a hyphen, two capitals.
    Language,
    /// A page number or page count, 1 to 9.
    PageNumber,
    /// Free text: shortest, longest, and how many line breaks are allowed.
    Text(usize, usize, usize),
    /// Up to three lines of 25 marks each.
    ThreeLines,
    /// A birth date: a day after 1 January 1875, or from 1875 on a year, or a year and month.
    Birth,
    /// One of M, W, D, X.
    Sex,
    /// A capital and nine digits.
    Card,
    /// Digits: fewest and most.
    Digits(usize, usize),
    /// Exactly 1.
    One,
    /// A moment, YYYY-MM-DDThh:mm:ss.
    Moment,
    /// Three capitals or digits.
    FormCode,
    /// One letter or digit.
    UnitCode,
    /// A dose of at most four marks.
    Dose,
    /// A package number with its check digit.
    Package,
}

/// One field of one element.
#[derive(Clone, Copy, Debug, PartialEq)]
pub struct Field {
    /// The element the field belongs to.
    pub element: &'static str,
    /// The attribute's name.
    pub name: &'static str,
    /// What its value must look like.
    pub rule: Rule,
    /// Whether it must be present.
    pub needed: bool,
}

const fn must(element: &'static str, name: &'static str, rule: Rule) -> Field {
    Field {
        element,
        name,
        rule,
        needed: true,
    }
}

const fn may(element: &'static str, name: &'static str, rule: Rule) -> Field {
    Field {
        element,
        name,
        rule,
        needed: false,
    }
}

/// Every field, in writing order.
pub const FIELDS: &[Field] = &[
    must("MP", "v", Rule::Version),
    may("MP", "p", Rule::Patch),
    must("MP", "U", Rule::Identity),
    may("MP", "l", Rule::Language),
    may("MP", "a", Rule::PageNumber),
    may("MP", "z", Rule::PageNumber),
    must("P", "g", Rule::Text(1, 45, 0)),
    must("P", "f", Rule::Text(1, 45, 0)),
    must("P", "b", Rule::Birth),
    may("P", "s", Rule::Sex),
    may("P", "egk", Rule::Card),
    may("P", "t", Rule::Text(1, 20, 0)),
    may("P", "v", Rule::Text(1, 20, 0)),
    may("P", "z", Rule::Text(1, 20, 0)),
    may("A", "lanr", Rule::Digits(9, 9)),
    may("A", "idf", Rule::Digits(7, 7)),
    may("A", "kik", Rule::Digits(9, 9)),
    must("A", "n", Rule::Text(1, 50, 0)),
    may("A", "s", Rule::Text(1, 30, 0)),
    may("A", "z", Rule::Digits(5, 5)),
    may("A", "c", Rule::Text(1, 20, 0)),
    may("A", "p", Rule::Text(1, 20, 0)),
    may("A", "e", Rule::Text(1, 40, 0)),
    must("A", "t", Rule::Moment),
    may("O", "ai", Rule::Text(1, 50, 0)),
    may("O", "w", Rule::Digits(1, 5)),
    may("O", "h", Rule::Digits(1, 3)),
    may("O", "c", Rule::Text(1, 5, 0)),
    may("O", "p", Rule::One),
    may("O", "b", Rule::One),
    may("O", "x", Rule::ThreeLines),
    may("S", "c", Rule::Digits(3, 3)),
    may("S", "t", Rule::Text(1, 50, 0)),
    may("M", "p", Rule::Package),
    may("M", "a", Rule::Text(1, 50, 0)),
    may("M", "f", Rule::FormCode),
    may("M", "fd", Rule::Text(1, 7, 0)),
    may("M", "m", Rule::Dose),
    may("M", "d", Rule::Dose),
    may("M", "v", Rule::Dose),
    may("M", "h", Rule::Dose),
    may("M", "t", Rule::Text(1, 20, 0)),
    may("M", "du", Rule::UnitCode),
    may("M", "dud", Rule::Text(2, 20, 0)),
    may("M", "i", Rule::Text(1, 80, 1)),
    may("M", "r", Rule::Text(1, 50, 1)),
    may("M", "x", Rule::Text(1, 200, 1)),
    must("W", "w", Rule::Text(1, 80, 0)),
    may("W", "s", Rule::Text(1, 15, 0)),
    must("R", "t", Rule::Text(1, 200, 1)),
    may("R", "x", Rule::Text(1, 200, 1)),
    must("X", "t", Rule::Text(1, 200, 1)),
];

/// The pairs that exclude each other: element, one field, other field.
pub const EXCLUDED: &[(&str, &str, &str)] = &[
    ("A", "lanr", "idf"),
    ("A", "lanr", "kik"),
    ("A", "idf", "kik"),
    ("S", "c", "t"),
    ("M", "f", "fd"),
    ("M", "m", "t"),
    ("M", "d", "t"),
    ("M", "v", "t"),
    ("M", "h", "t"),
    ("M", "du", "dud"),
];

/// The fields of one element, in writing order; none for an unknown element.
pub fn fields_of(element: &str) -> impl Iterator<Item = &'static Field> + '_ {
    FIELDS.iter().filter(move |field| field.element == element)
}

/// The field of this element with this letter, if there is one.
pub fn field(element: &str, name: &str) -> Option<&'static Field> {
    fields_of(element).find(|field| field.name == name)
}

/// Whether the two fields of this element exclude each other.
pub fn excluded(element: &str, one: &str, other: &str) -> bool {
    EXCLUDED
        .iter()
        .any(|pair| *pair == (element, one, other) || *pair == (element, other, one))
}

#[cfg(test)]
mod tests {
    use super::*;

    #[test]
    fn no_field_stands_twice() {
        for (place, one) in FIELDS.iter().enumerate() {
            assert_eq!(field(one.element, one.name), Some(&FIELDS[place]));
        }
    }

    #[test]
    fn excluded_pairs_name_fields_that_need_not_be_there() {
        for (element, one, other) in EXCLUDED {
            assert!(!field(element, one).unwrap().needed);
            assert!(!field(element, other).unwrap().needed);
            assert!(excluded(element, other, one));
        }
    }
}
