//! The test program `trial` against the second program, on a bounded number of cases.

use compare::trial::{difference, reading};
use inputs::vectors::{carried, named};
use inputs::{case, joined};

#[test]
fn the_program_reads_the_vectors_as_the_second_program_does() {
    let vectors = carried().into_iter().take(400).chain(named());
    let trials: Vec<_> = vectors
        .map(|vector| reading(format!("line {}", vector.line), &joined(&vector.pages)))
        .collect();
    assert_eq!(difference(&trials), None);
}

#[test]
fn the_program_reads_generated_cases_as_the_second_program_does() {
    let trials: Vec<_> = (0..400)
        .map(|seed| reading(format!("seed {seed}"), &joined(&case(seed).pages)))
        .collect();
    assert_eq!(difference(&trials), None);
}

#[test]
fn the_program_takes_no_more_than_twelve_thousand_six_hundred_and_nine_bytes() {
    let full = carried()
        .into_iter()
        .find(|vector| vector.listing.starts_with(b"MP.v=027"))
        .expect("some vector is a plan");
    let page = joined(&full.pages);
    let padded = |size: usize| [&page[..], &vec![0; size - page.len()]].concat();
    let trials = [
        reading("no byte".to_string(), b""),
        reading("nine empty pages".to_string(), &[0; 8]),
        reading("ten empty pages".to_string(), &[0; 9]),
        reading("12,609 bytes".to_string(), &padded(12_609)),
        reading("12,610 spaces".to_string(), &[b' '; 12_610]),
        reading("65,536 bytes".to_string(), &[0; 65_536]),
    ];
    assert_eq!(difference(&trials), None);
}
