//! A seeded generator of sheets to test with: plans spelled, cut and shuffled in many ways, damaged sets, and garbage.
//!
//! `case(seed)` gives one set of pages; the same seed always gives the same set. The generator has its own model of a
//! plan and its own table of fields, so that a mistake in a reader is not repeated in the inputs it is tried with.

pub mod case;
pub mod cell;
pub mod cut;
pub mod damage;
pub mod disguise;
pub mod fields;
pub mod fill;
pub mod garbage;
pub mod index;
pub mod numbers;
pub mod plan;
pub mod random;
pub mod references;
pub mod sequence;
pub mod spelling;
pub mod values;
pub mod vectors;

pub use case::{case, kinds, meant_listing, meant_refusal, Case};
pub use cell::{cell_input, cell_text};
pub use fields::FIELDS;
pub use garbage::bytes_like_page;
pub use numbers::{numbers, Numbers};
pub use random::Random;
pub use references::raw_value;
pub use sequence::{sequence, Step};
pub use values::value_near;

/// The pages with one zero byte between them, as the programs planlist and planfresh read them, and planfind and plancell behind what they are asked.
pub fn joined(pages: &[Vec<u8>]) -> Vec<u8> {
    pages.join(&0)
}

#[cfg(test)]
mod tests {
    use super::*;

    #[test]
    fn pages_are_joined_by_single_zero_bytes() {
        assert_eq!(joined(&[]), b"");
        assert_eq!(joined(&[b"a".to_vec()]), b"a");
        assert_eq!(
            joined(&[b"a".to_vec(), Vec::new(), b"b".to_vec()]),
            b"a\0\0b"
        );
    }
}
