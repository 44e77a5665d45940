//! Garbage: bytes that were never a page, and pages that go wrong at any point of their markup.

use crate::damage::ALPHABET;
use crate::random::Random;
use crate::references::{raw_value, right_reference};

/// Bytes that look like a page from afar: random bytes, bytes of the markup, pieces of tags,
/// or the beginning of a small page that then goes on with a few stray bytes.
pub fn bytes_like_page(random: &mut Random) -> Vec<u8> {
    match random.below(6) {
        0 => any_bytes(random),
        1 => {
            let count = random.between(1, 60);
            random.bytes(ALPHABET, count)
        }
        2 => short_string(random),
        3 => pieces(random),
        _ => stray_beginning(random),
    }
}

fn any_bytes(random: &mut Random) -> Vec<u8> {
    let count = random.between(1, 40);
    (0..count).map(|_| random.number() as u8).collect()
}

/// A short string over the marks that decide where a page goes wrong.
fn short_string(random: &mut Random) -> Vec<u8> {
    let count = random.between(1, 12);
    let mut bytes = match random.chance(60) {
        true => b"<MP".to_vec(),
        false => Vec::new(),
    };
    bytes.extend(random.bytes(b"<>/=\"' &#x;a1MPS", count));
    bytes
}

/// What pages are made of, and some markup that no page may hold.
const PIECES: &[&str] = &[
    "<MP",
    "<P",
    "<S",
    "<M",
    ">",
    "/>",
    "</MP>",
    "</S>",
    "</M>",
    " v=\"027\"",
    " a='1'",
    " ",
    "=",
    "\"",
    "'",
    "<",
    "</",
    "x",
    " t=\"a\"",
    "<X t=\"a\"/>",
    "<W w='b'/>",
    "&amp;",
    "\r\n",
    "<?xml version=\"1.0\"?>",
    "<!--a-->",
    "<![CDATA[a]]>",
    "<O/>",
    "<R t='c'/>",
    "</P >",
];

/// Pieces of markup in any order.
fn pieces(random: &mut Random) -> Vec<u8> {
    let count = random.between(1, 14);
    (0..count)
        .flat_map(|_| random.word(PIECES).bytes())
        .collect()
}

/// The beginning of a small page with every kind of markup in it, and up to three stray bytes behind it.
fn stray_beginning(random: &mut Random) -> Vec<u8> {
    let value = match random.chance(50) {
        true => raw_value(random),
        false => right_reference(random),
    };
    let mut page = b" <MP v=\"027\" U = '00112233445566778899AABBCCDDEEFF'\n>\r<P g=\"".to_vec();
    page.extend(value);
    page.extend(
        b"\" f='&#x4b;&#0075;&quot;' b=\"19510704\"/><A n='a' t=\"2023-03-01T09:30:00\" ></A >",
    );
    page.extend(b"<O /><S><M a='b' ><W w=\"c\"/></M><X t = \"d\"/> </S>\t</MP > ");
    let end = random.between(0, page.len());
    page.truncate(end);
    let strays = random.between(0, 3);
    page.extend(random.bytes(ALPHABET, strays));
    page
}

#[cfg(test)]
mod tests {
    use super::*;

    #[test]
    fn garbage_is_never_longer_than_a_page() {
        let mut random = Random::new(1);
        assert!((0..2000).all(|_| bytes_like_page(&mut random).len() <= 1400));
    }
}
