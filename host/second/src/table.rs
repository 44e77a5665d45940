//! The one table of the nine elements and their 52 fields, in writing order.

/// The nine elements, in the order of the table.
#[derive(Clone, Copy, Debug, PartialEq, Eq)]
pub enum Name {
    MP,
    P,
    A,
    O,
    S,
    M,
    W,
    R,
    X,
}

/// What a present value must look like, beside its length.
#[derive(Clone, Copy, Debug, PartialEq, Eq)]
pub enum Rule {
    /// Any text.
    Text,
    /// Digits alone.
    Digits,
    /// A shape: `a` is a small letter, `A` a capital, `9` a digit, anything else itself.
    Like(&'static str),
    /// Each byte is one of these.
    Of(&'static str),
    /// One letter or digit.
    LetterOrDigit,
    /// A real day of the calendar after 1 January 1875, as YYYYMMDD; or, of a year from 1875
    /// on, YYYYMM00 or YYYY0000.
    Birthday,
    /// A real day and a time of day, as YYYY-MM-DDThh:mm:ss.
    Stamp,
    /// Up to three lines of 25, divided by `~`.
    Lines,
    /// Digits; digits, comma, digits; or digits, `/`, digits with a denominator above zero.
    Dose,
    /// A package number (PZN) with its check digit.
    Package,
}

/// How a plan keeps a field.
#[derive(Clone, Copy, Debug, PartialEq, Eq)]
pub enum Keep {
    /// As text in the text room.
    Text,
    /// As a number: MP.p and M.p.
    Number,
    /// Not at all, since it is always 027: MP.v.
    Edition,
    /// Not at all, since it belongs to the single page: a and z.
    Page,
}

/// One field: its letter, whether it must be present, what it may hold, and which
/// fields of its element it excludes.
#[derive(Clone, Copy, Debug)]
pub struct Field {
    pub letter: &'static str,
    pub must: bool,
    pub rule: Rule,
    pub least: usize,
    pub most: usize,
    pub tildes: usize,
    pub excludes: &'static [&'static str],
    pub keep: Keep,
}

/// One element: the element it stands in, whether it must be there, how many of it
/// are allowed there, the beginning of its listing keys, and its fields.
#[derive(Clone, Copy, Debug)]
pub struct Element {
    pub name: Name,
    pub letters: &'static str,
    pub within: Option<Name>,
    pub must: bool,
    pub most: usize,
    pub key: &'static str,
    pub fields: &'static [Field],
}

const fn field(letter: &'static str, rule: Rule, least: usize, most: usize) -> Field {
    let tildes = 0;
    let excludes: &[&str] = &[];
    let keep = Keep::Text;
    Field {
        letter,
        must: false,
        rule,
        least,
        most,
        tildes,
        excludes,
        keep,
    }
}

/// Free text of up to so many bytes.
const fn text(letter: &'static str, most: usize) -> Field {
    field(letter, Rule::Text, 1, most)
}

impl Field {
    /// The field is marked *.
    const fn must(self) -> Field {
        Field { must: true, ..self }
    }
    /// So many line breaks are allowed.
    const fn tildes(self, tildes: usize) -> Field {
        Field { tildes, ..self }
    }
    /// The field excludes these fields of the same element.
    const fn not(self, excludes: &'static [&'static str]) -> Field {
        Field { excludes, ..self }
    }
    /// The field is not kept as text.
    const fn kept(self, keep: Keep) -> Field {
        Field { keep, ..self }
    }
}

/// Any number of an element.
const MANY: usize = usize::MAX;
/// The only edition there is.
pub const EDITION: &str = "027";
/// The language where none is given.
pub const LANGUAGE: &str = "de-DE";
/// The four times of day: morning, noon, evening, night.
pub const TIMES: &[&str] = &["m", "d", "v", "h"];

const MP_FIELDS: &[Field] = &[
    field("v", Rule::Like(EDITION), 3, 3)
        .must()
        .kept(Keep::Edition),
    field("p", Rule::Digits, 1, 2).kept(Keep::Number),
    field("U", Rule::Of("0123456789ABCDEF"), 32, 32).must(),
    field("l", Rule::Like("aa-AA"), 5, 5),
    field("a", Rule::Of("123456789"), 1, 1).kept(Keep::Page),
    field("z", Rule::Of("123456789"), 1, 1).kept(Keep::Page),
];

const P_FIELDS: &[Field] = &[
    text("g", 45).must(),
    text("f", 45).must(),
    field("b", Rule::Birthday, 8, 8).must(),
    field("s", Rule::Of("MWDX"), 1, 1),
    field("egk", Rule::Like("A999999999"), 10, 10),
    text("t", 20),
    text("v", 20),
    text("z", 20),
];

const A_FIELDS: &[Field] = &[
    field("lanr", Rule::Digits, 9, 9).not(&["idf", "kik"]),
    field("idf", Rule::Digits, 7, 7).not(&["lanr", "kik"]),
    field("kik", Rule::Digits, 9, 9).not(&["lanr", "idf"]),
    text("n", 50).must(),
    text("s", 30),
    field("z", Rule::Digits, 5, 5),
    text("c", 20),
    text("p", 20),
    text("e", 40),
    field("t", Rule::Stamp, 19, 19).must(),
];

const O_FIELDS: &[Field] = &[
    text("ai", 50),
    field("w", Rule::Digits, 1, 5),
    field("h", Rule::Digits, 1, 3),
    text("c", 5),
    field("p", Rule::Of("1"), 1, 1),
    field("b", Rule::Of("1"), 1, 1),
    field("x", Rule::Lines, 1, 77).tildes(2),
];

const S_FIELDS: &[Field] = &[
    field("c", Rule::Digits, 3, 3).not(&["t"]),
    text("t", 50).not(&["c"]),
];

const M_FIELDS: &[Field] = &[
    field("p", Rule::Package, 1, 8).kept(Keep::Number),
    text("a", 50),
    field("f", Rule::Of("ABCDEFGHIJKLMNOPQRSTUVWXYZ0123456789"), 3, 3).not(&["fd"]),
    text("fd", 7).not(&["f"]),
    field("m", Rule::Dose, 1, 4).not(&["t"]),
    field("d", Rule::Dose, 1, 4).not(&["t"]),
    field("v", Rule::Dose, 1, 4).not(&["t"]),
    field("h", Rule::Dose, 1, 4).not(&["t"]),
    text("t", 20).not(TIMES),
    field("du", Rule::LetterOrDigit, 1, 1).not(&["dud"]),
    field("dud", Rule::Text, 2, 20).not(&["du"]),
    text("i", 80).tildes(1),
    text("r", 50).tildes(1),
    text("x", 200).tildes(1),
];

const W_FIELDS: &[Field] = &[text("w", 80).must(), text("s", 15)];

const R_FIELDS: &[Field] = &[text("t", 200).must().tildes(1), text("x", 200).tildes(1)];

const X_FIELDS: &[Field] = &[text("t", 200).must().tildes(1)];

const fn element(
    name: Name,
    letters: &'static str,
    within: Option<Name>,
    key: &'static str,
    fields: &'static [Field],
) -> Element {
    Element {
        name,
        letters,
        within,
        must: false,
        most: MANY,
        key,
        fields,
    }
}

impl Element {
    /// At most so many stand in the element around it.
    const fn most(self, most: usize) -> Element {
        Element { most, ..self }
    }
    /// Exactly one stands in the element around it.
    const fn one(self) -> Element {
        Element {
            must: true,
            most: 1,
            ..self
        }
    }
    /// The slot of the field with this letter.
    pub fn slot(&self, letter: &str) -> Option<usize> {
        self.fields.iter().position(|field| field.letter == letter)
    }
}

/// The table. Elements of MP stand here in the order they keep on a page.
pub const ELEMENTS: [Element; 9] = [
    element(Name::MP, "MP", None, "MP.", MP_FIELDS).one(),
    element(Name::P, "P", Some(Name::MP), "MP.P.", P_FIELDS).one(),
    element(Name::A, "A", Some(Name::MP), "MP.A.", A_FIELDS).one(),
    element(Name::O, "O", Some(Name::MP), "MP.O.", O_FIELDS).most(1),
    element(Name::S, "S", Some(Name::MP), "MP.S.", S_FIELDS),
    element(Name::M, "M", Some(Name::S), "MP.S.M.", M_FIELDS),
    element(Name::W, "W", Some(Name::M), "MP.S.M.W.", W_FIELDS).most(3),
    element(Name::R, "R", Some(Name::S), "MP.S.R.", R_FIELDS),
    element(Name::X, "X", Some(Name::S), "MP.S.X.", X_FIELDS),
];

/// The table's entry for an element.
pub fn entry(name: Name) -> &'static Element {
    &ELEMENTS[name as usize]
}

/// The element that these letters name inside the given one, if there is such.
pub fn inside(within: Option<Name>, letters: &[u8]) -> Option<&'static Element> {
    ELEMENTS
        .iter()
        .find(|element| element.within == within && element.letters.as_bytes() == letters)
}

/// The slot of a field that document 01 names, in the element that has it.
pub fn slot(name: Name, letter: &str) -> usize {
    entry(name).slot(letter).expect("the table has this field")
}
