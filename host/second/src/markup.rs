//! Whether a page is well-formed, and how far it goes if it is not.
//!
//! A machine takes the page byte by byte. After each byte some well-formed page
//! begins in just this way; the first byte for which that fails is the place.

use crate::class::{allowed, digit, letter, space};

/// The five references with a name, each with the byte it stands for.
pub const NAMED: [(&[u8], u8); 5] = [
    (b"amp;", b'&'),
    (b"lt;", b'<'),
    (b"gt;", b'>'),
    (b"quot;", b'"'),
    (b"apos;", b'\''),
];

/// Where on the page the machine stands.
#[derive(Clone, Copy, Debug, PartialEq, Eq)]
enum State {
    /// Before the outermost element.
    Before,
    /// Behind the `<` of a tag.
    Less,
    /// In the name of a start tag.
    Name,
    /// In a start tag behind a space, where an attribute may begin.
    Gap,
    /// In the name of an attribute.
    Attribute,
    /// Behind the name of an attribute and a space.
    BeforeEquals,
    /// Behind `=`.
    BeforeQuote,
    /// In a value that ends with this quote.
    Value(u8),
    /// In a reference of such a value; the reference begins at the place given.
    Reference(u8, usize),
    /// Behind the closing quote of a value.
    Quoted,
    /// Behind the `/` that closes an element by itself.
    Slash,
    /// Between two tags inside the outermost element.
    Between,
    /// In an end tag of which so many bytes of the name have come.
    EndName(usize),
    /// In an end tag behind its name and a space.
    EndGap,
    /// Behind the outermost element.
    After,
}

/// The machine: the page, its state, and the names of the elements that are open.
struct Machine<'a> {
    page: &'a [u8],
    state: State,
    open: Vec<&'a [u8]>,
    name_start: usize,
}

/// Answers whether the page is well-formed. If not, the answer is the length of the
/// longest beginning that some well-formed page of any length shares; for a page
/// that only ends too early this is its whole length.
pub fn well_formed(page: &[u8]) -> Result<(), usize> {
    let mut machine = Machine {
        page,
        state: State::Before,
        open: Vec::new(),
        name_start: 0,
    };
    for place in 0..page.len() {
        match machine.next(place) {
            Some(state) => machine.state = state,
            None => return Err(place),
        }
    }
    match machine.state {
        State::After => Ok(()),
        _ => Err(page.len()),
    }
}

impl<'a> Machine<'a> {
    /// The state behind the byte at this place, or nothing if no well-formed page
    /// that begins as this one has that byte here.
    fn next(&mut self, place: usize) -> Option<State> {
        let byte = self.page[place];
        if !allowed(byte) {
            return None;
        }
        match self.state {
            State::Before => outside(byte, State::Before, Some(State::Less)),
            State::After => outside(byte, State::After, None),
            State::Between => outside(byte, State::Between, Some(State::Less)),
            State::Less => self.less(byte, place),
            State::Name | State::Gap | State::Quoted => self.in_tag(byte, place),
            State::Attribute | State::BeforeEquals | State::BeforeQuote => self.attribute(byte),
            State::Value(quote) => in_value(byte, quote, place),
            State::Reference(quote, start) => reference(&self.page[start..=place], quote, start),
            State::Slash => (byte == b'>').then(|| self.outside_state()),
            State::EndName(_) | State::EndGap => self.end_tag(byte),
        }
    }

    /// Behind `<` comes the name of a start tag or, inside an element, the `/` of an end tag.
    fn less(&mut self, byte: u8, place: usize) -> Option<State> {
        self.name_start = place;
        match byte {
            b'/' if !self.open.is_empty() => Some(State::EndName(0)),
            _ => letter(byte).then_some(State::Name),
        }
    }

    /// In a start tag outside its attributes. An attribute needs a space before it.
    fn in_tag(&mut self, byte: u8, place: usize) -> Option<State> {
        if self.state == State::Name {
            if letter(byte) || digit(byte) {
                return Some(State::Name);
            }
            self.open.push(&self.page[self.name_start..place]);
        }
        match byte {
            b'>' => Some(State::Between),
            b'/' => {
                self.open.pop();
                Some(State::Slash)
            }
            _ if space(byte) => Some(State::Gap),
            _ if letter(byte) && self.state == State::Gap => Some(State::Attribute),
            _ => None,
        }
    }

    /// From the name of an attribute to the quote that opens its value.
    fn attribute(&self, byte: u8) -> Option<State> {
        match (self.state, byte) {
            (State::Attribute, _) if letter(byte) || digit(byte) => Some(State::Attribute),
            (State::Attribute | State::BeforeEquals, b'=') => Some(State::BeforeQuote),
            (State::Attribute | State::BeforeEquals, _) if space(byte) => Some(State::BeforeEquals),
            (State::BeforeQuote, b'"' | b'\'') => Some(State::Value(byte)),
            (State::BeforeQuote, _) if space(byte) => Some(State::BeforeQuote),
            _ => None,
        }
    }

    /// In an end tag, which names its start tag and may have spaces before `>`.
    fn end_tag(&mut self, byte: u8) -> Option<State> {
        let name = *self.open.last()?;
        match self.state {
            State::EndName(come) if come < name.len() => {
                (byte == name[come]).then_some(State::EndName(come + 1))
            }
            _ if space(byte) => Some(State::EndGap),
            _ if byte == b'>' => {
                self.open.pop();
                Some(self.outside_state())
            }
            _ => None,
        }
    }

    /// The state behind an element that has just been closed.
    fn outside_state(&self) -> State {
        match self.open.is_empty() {
            true => State::After,
            false => State::Between,
        }
    }
}

/// Outside tags there are spaces and, where a tag may begin, `<`.
fn outside(byte: u8, stay: State, tag: Option<State>) -> Option<State> {
    match byte {
        b'<' => tag,
        _ => space(byte).then_some(stay),
    }
}

/// In a value a raw `<` is malformed and `&` begins a reference.
fn in_value(byte: u8, quote: u8, place: usize) -> Option<State> {
    match byte {
        b'<' => None,
        b'&' => Some(State::Reference(quote, place + 1)),
        _ if byte == quote => Some(State::Quoted),
        _ => Some(State::Value(quote)),
    }
}

/// In a reference, of which these bytes behind its `&` have come.
fn reference(come: &[u8], quote: u8, start: usize) -> Option<State> {
    let number = come.strip_prefix(b"#").is_some_and(number_begins);
    let named = NAMED.iter().any(|(name, _)| name.starts_with(come));
    match come.last() {
        Some(b';') if number || named => Some(State::Value(quote)),
        _ => (number || named).then_some(State::Reference(quote, start)),
    }
}

/// Whether a number reference may begin with these bytes behind its `#`: one digit
/// or more and `;`, hexadecimal behind a small `x`.
fn number_begins(come: &[u8]) -> bool {
    let (hexadecimal, digits) = match come.strip_prefix(b"x") {
        Some(rest) => (true, rest),
        None => (false, come),
    };
    let run = match digits.strip_suffix(b";") {
        Some([]) => return false,
        Some(run) => run,
        None => digits,
    };
    run.iter()
        .all(|&byte| digit(byte) || hexadecimal && byte.is_ascii_hexdigit())
}
