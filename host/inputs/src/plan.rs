//! Plans as the generator knows them: elements with attributes, a head and rows, and the listing they must have.

use crate::fields::{excluded, fields_of, Field};
use crate::random::Random;
use crate::values::{right, Fullness, Ink};

/// What an attribute holds before it is spelled.
#[derive(Clone, Debug, PartialEq)]
pub enum Value {
    /// The value that is meant; the spelling is free to choose references and blanks.
    Meant(Vec<u8>),
    /// The bytes that stand between the quotes, spelled just so.
    Raw(Vec<u8>),
}

/// One attribute of an element.
#[derive(Clone, Debug, PartialEq)]
pub struct Attribute {
    /// The attribute's name.
    pub name: String,
    /// What it holds.
    pub value: Value,
}

/// One element of a page.
#[derive(Clone, Debug, Default, PartialEq)]
pub struct Element {
    /// The element's name.
    pub name: String,
    /// Its attributes in the order in which they stand.
    pub attributes: Vec<Attribute>,
    /// The elements inside it.
    pub children: Vec<Element>,
}

impl Element {
    /// An element of this name with nothing in it.
    pub fn new(name: &str) -> Element {
        Element {
            name: name.to_string(),
            ..Element::default()
        }
    }

    /// Whether the tag has an attribute of this name, empty or not.
    pub fn has(&self, name: &str) -> bool {
        self.attributes
            .iter()
            .any(|attribute| attribute.name == name)
    }

    /// The meant value of the attribute of this name, if it is there.
    pub fn meant(&self, name: &str) -> Option<&Vec<u8>> {
        let found = self
            .attributes
            .iter()
            .find(|attribute| attribute.name == name)?;
        match &found.value {
            Value::Meant(value) => Some(value),
            Value::Raw(_) => None,
        }
    }

    /// Whether a field of this name could be added without an excluded pair or a second one.
    pub fn takes(&self, name: &str) -> bool {
        let clash = |attribute: &Attribute| excluded(&self.name, &attribute.name, name);
        !self.has(name) && !self.attributes.iter().any(clash)
    }

    /// Gives the field this value, in place of an earlier one if there is one.
    pub fn set(&mut self, name: &str, value: Value) {
        match self
            .attributes
            .iter_mut()
            .find(|attribute| attribute.name == name)
        {
            Some(attribute) => attribute.value = value,
            None => self.attributes.push(Attribute {
                name: name.to_string(),
                value,
            }),
        }
    }

    /// Takes the field away.
    pub fn unset(&mut self, name: &str) {
        self.attributes.retain(|attribute| attribute.name != name);
    }

    /// Whether this element or one inside it holds a value that is spelled just so.
    pub fn holds_raw(&self) -> bool {
        let raw = |attribute: &Attribute| matches!(attribute.value, Value::Raw(_));
        self.attributes.iter().any(raw) || self.children.iter().any(Element::holds_raw)
    }

    /// How many elements there are, this one and all inside it.
    pub fn count(&self) -> usize {
        1 + self.children.iter().map(Element::count).sum::<usize>()
    }

    /// The element at this place, counted from 0 in document order, this one being the first.
    pub fn nth(&mut self, place: usize) -> &mut Element {
        let mut left = place;
        if left == 0 {
            return self;
        }
        left -= 1;
        for child in &mut self.children {
            let inside = child.count();
            if left < inside {
                return child.nth(left);
            }
            left -= inside;
        }
        panic!("no element at place {place}")
    }
}

/// A plan: what its pages say, free of any spelling or cut.
#[derive(Clone, Debug, PartialEq)]
pub struct Plan {
    /// MP without page number, page count and children.
    pub mp: Element,
    /// P, A and, where there is one, O.
    pub people: Vec<Element>,
    /// The rows: S with its heading and no children, or M, R, X.
    pub rows: Vec<Element>,
}

/// What a random plan looks like.
#[derive(Clone, Copy, Debug)]
pub struct Shape {
    /// The number of rows.
    pub rows: usize,
    /// How many of a hundred optional fields are present.
    pub optional: usize,
    /// How full values of the head are.
    pub head: Fullness,
    /// How full values of the rows are.
    pub row: Fullness,
}

impl Shape {
    /// A plan with so many rows, small enough for many spellings.
    pub fn usual(rows: usize, random: &mut Random) -> Shape {
        let ink = *random.pick(&[Ink::Plain, Ink::Plain, Ink::Mixed]);
        let longest = *random.pick(&[0, 2, 10]);
        let optional = *random.pick(&[5, 30, 60]);
        let usual = *random.pick(&[4, 8, 20]);
        let fullness = Fullness {
            ink,
            longest,
            usual,
        };
        Shape {
            rows,
            optional,
            head: fullness,
            row: fullness,
        }
    }
}

impl Plan {
    /// A plan of this shape that keeps every rule.
    pub fn random(shape: Shape, random: &mut Random) -> Plan {
        let mut mp = Element::new("MP");
        fill(&mut mp, shape.optional, shape.head, random);
        mp.unset("a");
        mp.unset("z");
        if !mp.has("l") {
            mp.set("l", Value::Meant(b"de-DE".to_vec()));
        }
        let mut people: Vec<Element> = ["P", "A", "O"].map(Element::new).into();
        for person in &mut people {
            fill(person, shape.optional, shape.head, random);
        }
        people.retain(|person| person.name != "O" || !person.attributes.is_empty());
        let rows = (0..shape.rows).map(|_| row(shape, random)).collect();
        Plan { mp, people, rows }
    }

    /// The listing that reading this plan must give.
    pub fn listing(&self) -> Vec<u8> {
        let mut lines = Vec::new();
        list(&self.mp, "MP", &mut lines);
        for person in &self.people {
            list(person, &format!("MP.{}", person.name), &mut lines);
        }
        for row in &self.rows {
            let (mark, path) = match row.name.as_str() {
                "S" => ("H", "MP.S".to_string()),
                name => (name, format!("MP.S.{name}")),
            };
            lines.extend(format!("row={mark}\n").into_bytes());
            list(row, &path, &mut lines);
            for substance in &row.children {
                list(substance, "MP.S.M.W", &mut lines);
            }
        }
        lines.extend(format!("rows={}\n", self.rows.len()).into_bytes());
        lines
    }
}

fn list(element: &Element, path: &str, lines: &mut Vec<u8>) {
    for field in fields_of(&element.name) {
        if let Some(value) = element.meant(field.name) {
            lines.extend(format!("{path}.{}=", field.name).into_bytes());
            lines.extend(value);
            lines.push(b'\n');
        }
    }
}

/// Gives the element its needed fields and some of the optional ones.
fn fill(element: &mut Element, optional: usize, fullness: Fullness, random: &mut Random) {
    let name = element.name.clone();
    let mut order: Vec<&Field> = fields_of(&name).collect();
    random.shuffle(&mut order);
    for field in order {
        if element.takes(field.name) && (field.needed || random.chance(optional)) {
            let value = right(field.rule, fullness, random);
            element.set(field.name, Value::Meant(value));
        }
    }
}

/// One row of a plan: a medication, a heading, a recipe or a note.
pub fn row(shape: Shape, random: &mut Random) -> Element {
    if shape.row.ink == Ink::Tiny {
        let mut note = Element::new("X");
        note.set("t", Value::Meant(b"a".to_vec()));
        return note;
    }
    let name = random.word(&["M", "M", "M", "S", "R", "X"]);
    let mut row = Element::new(name);
    fill(&mut row, shape.optional, shape.row, random);
    match name {
        "M" => finish_medication(&mut row, shape, random),
        "S" if row.attributes.is_empty() => {
            row.set("c", Value::Meant(random.bytes(b"0123456789", 3)))
        }
        _ => {}
    }
    row
}

/// Adds substances, and a name where the medication would otherwise have nothing to go by.
fn finish_medication(row: &mut Element, shape: Shape, random: &mut Random) {
    let most = if random.chance(shape.optional) { 3 } else { 1 };
    for _ in 0..random.between(0, most) {
        let mut substance = Element::new("W");
        fill(&mut substance, shape.optional, shape.row, random);
        row.children.push(substance);
    }
    if row.children.is_empty() && !row.has("p") && !row.has("a") {
        row.set("a", Value::Meant(b"Ibu".to_vec()));
    }
}

#[cfg(test)]
mod tests {
    use super::*;

    #[test]
    fn the_example_of_the_scope_lists_as_written_there() {
        let mut plan = Plan {
            mp: Element::new("MP"),
            people: Vec::new(),
            rows: Vec::new(),
        };
        let set = |element: &mut Element, name: &str, value: &str| {
            element.set(name, Value::Meant(value.as_bytes().to_vec()));
        };
        set(&mut plan.mp, "l", "de-DE");
        set(&mut plan.mp, "v", "027");
        let mut row = Element::new("M");
        set(&mut row, "v", "0,5");
        set(&mut row, "p", "2394428");
        plan.rows.push(row);
        let listing = String::from_utf8(plan.listing()).unwrap();
        assert_eq!(
            listing,
            "MP.v=027\nMP.l=de-DE\nrow=M\nMP.S.M.p=2394428\nMP.S.M.v=0,5\nrows=1\n"
        );
    }

    #[test]
    fn random_plans_hold_no_excluded_pair_and_every_needed_field() {
        for seed in 0..300 {
            let mut random = Random::new(seed);
            let shape = Shape::usual(9, &mut random);
            let plan = Plan::random(shape, &mut random);
            for element in plan.people.iter().chain(&plan.rows) {
                for field in fields_of(&element.name) {
                    let clash =
                        |other: &Attribute| excluded(&element.name, field.name, &other.name);
                    assert!(!element.has(field.name) || !element.attributes.iter().any(clash));
                    assert!(!field.needed || element.has(field.name));
                }
            }
        }
    }

    #[test]
    fn elements_are_found_in_document_order() {
        let mut root = Element::new("MP");
        root.children = vec![Element::new("P"), Element::new("S"), Element::new("S")];
        root.children[1].children.push(Element::new("M"));
        let names: Vec<String> = (0..root.count())
            .map(|place| root.nth(place).name.clone())
            .collect();
        assert_eq!(names, ["MP", "P", "S", "M", "S"]);
    }
}
