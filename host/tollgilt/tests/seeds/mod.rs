//! How many seeds the tests take.

use std::ops::Range;

/// The seeds of a test: so many, or as many as the environment variable TOLLGILT_SEEDS says.
pub fn seeds(usual: u64) -> Range<u64> {
    let said = std::env::var("TOLLGILT_SEEDS").ok();
    0..said.map_or(usual, |count| count.parse().expect("a number of seeds"))
}
