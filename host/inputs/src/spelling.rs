//! Spelling: turns the element of a page into bytes, in one of the many ways that mean the same.

use crate::plan::{Element, Value};
use crate::random::Random;

/// The longest page that reading takes.
pub const LONGEST_PAGE: usize = 1400;

/// How far a spelling strays from the plainest one; each number is a chance out of a hundred.
#[derive(Clone, Copy, Debug, PartialEq)]
pub struct Manner {
    /// Spaces where they may stand but need not.
    pub spaces: usize,
    /// References where the byte itself would do.
    pub references: usize,
    /// Single quotes, pairs of tags, other orders of attributes, other blanks in values.
    pub variety: usize,
    /// Empty fields, trailing blanks, zero doses and other disguises.
    pub disguise: usize,
}

/// The spelling with nothing that could be left out.
pub const BARE: Manner = Manner {
    spaces: 0,
    references: 0,
    variety: 0,
    disguise: 0,
};

impl Manner {
    /// Some manner, from nearly bare to wild.
    pub fn random(random: &mut Random) -> Manner {
        let mut some = |chances: &[usize]| *random.pick(chances);
        Manner {
            spaces: some(&[0, 3, 10, 30]),
            references: some(&[0, 2, 10, 50]),
            variety: some(&[0, 30, 60]),
            disguise: some(&[0, 10, 40]),
        }
    }

    /// The same manner with shorter spellings.
    fn milder(self) -> Manner {
        Manner {
            spaces: self.spaces / 3,
            references: self.references / 3,
            ..self
        }
    }
}

/// Spells the page in this manner, or in a milder one where it would grow above 1,400 bytes.
/// It is longer than that only when even the bare spelling is.
pub fn page(root: &Element, manner: Manner, random: &mut Random) -> Vec<u8> {
    let mut milder = manner;
    for _ in 0..5 {
        let bytes = spelled(root, milder, random);
        if bytes.len() <= LONGEST_PAGE {
            return bytes;
        }
        milder = milder.milder();
    }
    bare(root)
}

/// The shortest spelling.
pub fn bare(root: &Element) -> Vec<u8> {
    spelled(root, BARE, &mut Random::new(0))
}

/// Spells the page in just this manner, however long it gets.
pub fn spelled(root: &Element, manner: Manner, random: &mut Random) -> Vec<u8> {
    let mut speller = Speller {
        manner,
        random,
        bytes: Vec::new(),
    };
    speller.gap();
    speller.element(root);
    speller.gap();
    speller.bytes
}

struct Speller<'a> {
    manner: Manner,
    random: &'a mut Random,
    bytes: Vec<u8>,
}

impl Speller<'_> {
    fn put(&mut self, text: &str) {
        self.bytes.extend(text.as_bytes());
    }

    /// Spaces in a place where they may stand.
    fn gap(&mut self) {
        while self.random.chance(self.manner.spaces) {
            let space = self.space();
            self.put(space);
        }
    }

    fn space(&mut self) -> &'static str {
        if !self.random.chance(self.manner.variety) {
            return " ";
        }
        self.random.word(&[" ", "\t", "\n", "\r", "\r\n", "  "])
    }

    fn element(&mut self, element: &Element) {
        self.put("<");
        self.put(&element.name);
        let mut order: Vec<usize> = (0..element.attributes.len()).collect();
        if self.random.chance(self.manner.variety) {
            self.random.shuffle(&mut order);
        }
        for place in order {
            let attribute = &element.attributes[place];
            let space = self.space();
            self.put(space);
            self.gap();
            self.put(&attribute.name);
            self.gap();
            self.put("=");
            self.gap();
            self.value(&attribute.value);
        }
        self.gap();
        let paired = !element.children.is_empty() || self.random.chance(self.manner.variety / 2);
        match paired {
            true => self.inside(element),
            false => self.put("/>"),
        }
    }

    /// The children and the end tag.
    fn inside(&mut self, element: &Element) {
        self.put(">");
        self.gap();
        for child in &element.children {
            self.element(child);
            self.gap();
        }
        self.put("</");
        self.put(&element.name);
        self.gap();
        self.put(">");
    }

    fn value(&mut self, value: &Value) {
        match value {
            Value::Raw(raw) => {
                let quote = if raw.contains(&b'"') { b'\'' } else { b'"' };
                self.bytes.push(quote);
                self.bytes.extend(raw);
                self.bytes.push(quote);
            }
            Value::Meant(meant) => {
                let quote = self.quote(meant);
                self.bytes.push(quote);
                for byte in meant {
                    self.mark(*byte, quote);
                }
                self.bytes.push(quote);
            }
        }
    }

    /// The quote that makes the value shorter, or at times just any.
    fn quote(&mut self, meant: &[u8]) -> u8 {
        if self.random.chance(self.manner.variety) {
            return self.random.byte(b"\"'");
        }
        let count = |quote: u8| meant.iter().filter(|byte| **byte == quote).count();
        match count(b'"') > count(b'\'') {
            true => b'\'',
            false => b'"',
        }
    }

    /// One byte of a value, as itself or as a reference.
    fn mark(&mut self, byte: u8, quote: u8) {
        let obliged = byte == b'&' || byte == b'<' || byte == quote;
        if obliged || self.random.chance(self.manner.references) {
            let reference = self.reference(byte);
            self.put(&reference);
        } else if byte == b' ' && self.random.chance(self.manner.variety / 2) {
            self.blank();
        } else {
            self.bytes.push(byte);
        }
    }

    /// A blank as tab, line feed, carriage return or both; a line feed never follows a carriage return
    /// of an earlier blank, since the two would read as one.
    fn blank(&mut self) {
        let after_return = self.bytes.last() == Some(&b'\r');
        let blanks: &[&str] = match after_return {
            true => &["\t", "\r", "\r\n"],
            false => &["\t", "\n", "\r", "\r\n"],
        };
        let blank = self.random.word(blanks);
        self.put(blank);
    }

    fn reference(&mut self, byte: u8) -> String {
        let named = match byte {
            b'&' => "&amp;",
            b'<' => "&lt;",
            b'>' => "&gt;",
            b'"' => "&quot;",
            b'\'' => "&apos;",
            _ => "",
        };
        let short = self.manner.references == 0 && named.len() == 4
            || self.manner.variety == 0 && byte == b'&';
        if short || !named.is_empty() && self.random.chance(self.manner.variety) {
            return named.to_string();
        }
        let zeros = match self.random.chance(self.manner.variety / 2) {
            true => "0".repeat(self.random.between(1, 3)),
            false => String::new(),
        };
        match self
            .random
            .below(if self.manner.variety == 0 { 1 } else { 3 })
        {
            0 => format!("&#{zeros}{byte};"),
            1 => format!("&#x{zeros}{byte:x};"),
            _ => format!("&#x{zeros}{byte:X};"),
        }
    }
}

#[cfg(test)]
mod tests {
    use super::*;

    fn note(text: &[u8]) -> Element {
        let mut note = Element::new("X");
        note.set("t", Value::Meant(text.to_vec()));
        note
    }

    #[test]
    fn the_bare_spelling_leaves_out_what_it_can() {
        assert_eq!(bare(&note(b"a")), b"<X t=\"a\"/>");
        assert_eq!(bare(&note(b"\"\"<'&")), b"<X t='\"\"&lt;&#39;&amp;'/>");
    }

    #[test]
    fn two_blanks_never_merge_into_one() {
        let wild = Manner {
            spaces: 0,
            references: 0,
            variety: 100,
            disguise: 0,
        };
        for seed in 0..2000 {
            let bytes = spelled(&note(b"a      b"), wild, &mut Random::new(seed));
            let text = String::from_utf8(bytes).unwrap().replace("\r\n", " ");
            let inside = &text[text.find('a').unwrap()..text.find('b').unwrap()];
            assert_eq!(inside.len(), 7, "{text:?}");
        }
    }

    #[test]
    fn wild_spellings_differ_from_each_other() {
        let wild = Manner {
            spaces: 30,
            references: 50,
            variety: 60,
            disguise: 0,
        };
        let spell = |seed| spelled(&note(b"a <b> & c"), wild, &mut Random::new(seed));
        assert!((0..100).all(|seed| spell(seed) != spell(seed + 1)));
    }

    #[test]
    fn pages_stay_within_their_length_where_they_can() {
        let wild = Manner {
            spaces: 30,
            references: 50,
            variety: 60,
            disguise: 0,
        };
        for seed in 0..200 {
            let bytes = page(&note(&[b'a'; 1300]), wild, &mut Random::new(seed));
            assert!(bytes.len() <= LONGEST_PAGE);
        }
    }
}
