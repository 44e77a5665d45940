//! A well-formed page as a tree of its elements, each with its place.

use crate::class::{digit, letter, space};

/// One element: the place of its `<`, its name, its attributes as written, and the
/// elements inside it.
#[derive(Clone, Debug, PartialEq, Eq)]
pub struct Tag<'a> {
    pub place: usize,
    pub name: &'a [u8],
    pub attributes: Vec<(&'a [u8], &'a [u8])>,
    pub children: Vec<Tag<'a>>,
}

/// A reader that goes over a page known to be well-formed.
struct Walk<'a> {
    page: &'a [u8],
    place: usize,
}

/// The outermost element of a page that is well-formed.
pub fn outermost(page: &[u8]) -> Tag<'_> {
    let mut walk = Walk { page, place: 0 };
    walk.spaces();
    walk.element()
}

impl<'a> Walk<'a> {
    fn byte(&self) -> u8 {
        self.page[self.place]
    }

    fn spaces(&mut self) {
        while space(self.byte()) {
            self.place += 1;
        }
    }

    fn name(&mut self) -> &'a [u8] {
        let start = self.place;
        while letter(self.byte()) || digit(self.byte()) {
            self.place += 1;
        }
        &self.page[start..self.place]
    }

    /// Reads the element whose `<` stands here, up to behind its last `>`.
    fn element(&mut self) -> Tag<'a> {
        let place = self.place;
        self.place += 1;
        let mut tag = Tag {
            place,
            name: self.name(),
            attributes: Vec::new(),
            children: Vec::new(),
        };
        self.spaces();
        while letter(self.byte()) {
            tag.attributes.push(self.attribute());
            self.spaces();
        }
        if self.byte() == b'/' {
            self.place += 2;
            return tag;
        }
        self.place += 1;
        tag.children = self.children();
        tag
    }

    /// Reads the elements up to the end tag, and the end tag.
    fn children(&mut self) -> Vec<Tag<'a>> {
        let mut children = Vec::new();
        self.spaces();
        while self.page[self.place + 1] != b'/' {
            children.push(self.element());
            self.spaces();
        }
        self.place += 2;
        self.name();
        self.spaces();
        self.place += 1;
        children
    }

    /// Reads one attribute: its name, and its value as it stands between the quotes.
    fn attribute(&mut self) -> (&'a [u8], &'a [u8]) {
        let name = self.name();
        self.spaces();
        self.place += 1;
        self.spaces();
        let quote = self.byte();
        let start = self.place + 1;
        self.place = start;
        while self.byte() != quote {
            self.place += 1;
        }
        let value = &self.page[start..self.place];
        self.place += 1;
        (name, value)
    }
}
