//! The class of each byte, in one table of 256 entries.

/// What a byte is on a page.
#[derive(Clone, Copy, Debug, PartialEq, Eq)]
pub enum Class {
    /// The byte is not allowed on a page.
    Refused,
    /// Bytes 9, 10, 13 and 32.
    Space,
    /// `0` to `9`.
    Digit,
    /// `A` to `Z`.
    Capital,
    /// `a` to `z`.
    Small,
    /// Every other allowed byte.
    Other,
}

/// The rule of the table: the class of one byte.
const fn rule(byte: u8) -> Class {
    match byte {
        9 | 10 | 13 | 32 => Class::Space,
        b'0'..=b'9' => Class::Digit,
        b'A'..=b'Z' => Class::Capital,
        b'a'..=b'z' => Class::Small,
        33..=126 | 160..=255 => Class::Other,
        _ => Class::Refused,
    }
}

/// The table: one class for each of the 256 bytes.
pub const CLASSES: [Class; 256] = {
    let mut classes = [Class::Refused; 256];
    let mut byte = 0;
    while byte < 256 {
        classes[byte] = rule(byte as u8);
        byte += 1;
    }
    classes
};

/// The class of a byte, as the table has it.
pub fn class(byte: u8) -> Class {
    CLASSES[byte as usize]
}

/// Whether the byte may stand on a page.
pub fn allowed(byte: u8) -> bool {
    class(byte) != Class::Refused
}

/// Whether the byte is one of the four spaces.
pub fn space(byte: u8) -> bool {
    class(byte) == Class::Space
}

/// Whether the byte is a digit.
pub fn digit(byte: u8) -> bool {
    class(byte) == Class::Digit
}

/// Whether the byte is a capital letter.
pub fn capital(byte: u8) -> bool {
    class(byte) == Class::Capital
}

/// Whether the byte is a small letter.
pub fn small(byte: u8) -> bool {
    class(byte) == Class::Small
}

/// Whether the byte is a letter, so that a name may begin with it.
pub fn letter(byte: u8) -> bool {
    capital(byte) || small(byte)
}

/// Whether a decoded value may hold the byte: 32 to 126 and 160 to 255.
pub fn decoded(byte: u8) -> bool {
    matches!(byte, 32..=126 | 160..=255)
}
