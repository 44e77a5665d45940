//! The laws of the second program over the first seeds, and that the generator reaches every answer.

#[path = "../laws/laws.rs"]
mod laws;

use second::{read, write};
use std::collections::BTreeMap;

/// Seeds that `cargo test` tries; the program laws tries as many as it is asked to.
const SEEDS: u64 = 1_500;

/// Seeds over which each answer must have its share.
const SHARED_SEEDS: u64 = 8_000;

/// What may be answered of an index and of a cell.
const ASKED_ANSWERS: [&str; 21] = [
    "absent",
    "building 1",
    "built",
    "found in sheets",
    "none",
    "not found in sheets",
    "plancell cuts the catalogue's text",
    "plancell prints 0",
    "plancell refuses pages",
    "plancell refuses the cell",
    "plancell refuses what is asked",
    "plancell shows nothing",
    "plancell shows the catalogue's text",
    "plancell shows the plan's text",
    "planfind finds",
    "planfind refuses pages",
    "planfind refuses the number",
    "question 1",
    "question 20",
    "row",
    "sheets refused",
];

/// The number of the answer to a set of pages: 0 for read and written.
fn answer(pages: &[Vec<u8>]) -> u8 {
    let slices: Vec<&[u8]> = pages.iter().map(Vec::as_slice).collect();
    match read(&slices) {
        Ok(plan) => write(&plan).err().map_or(0, |refusal| refusal.number),
        Err(refusal) => refusal.number,
    }
}

#[test]
fn every_law_holds_over_the_first_seeds() {
    let tally = laws::run(0, SEEDS);
    assert!(
        tally.failures.is_empty(),
        "{:#?}",
        &tally.failures[..tally.failures.len().min(5)]
    );
    assert_eq!(tally.passed as u64, SEEDS);
    assert_eq!(tally.undamaged.0, tally.undamaged.1);
    assert_eq!(
        tally.kinds.keys().copied().collect::<Vec<_>>(),
        sorted_kinds()
    );
    assert_eq!(tally.answers.values().sum::<usize>() as u64, SEEDS);
    assert_eq!(
        tally.asked.keys().copied().collect::<Vec<_>>(),
        ASKED_ANSWERS
    );
    let share = |count: &usize| *count as u64 > SEEDS / 20;
    assert!(tally.asked.values().all(share), "{:?}", tally.asked);
}

fn sorted_kinds() -> Vec<&'static str> {
    let mut kinds: Vec<&str> = inputs::kinds().collect();
    kinds.sort();
    kinds
}

#[test]
fn every_answer_has_a_reasonable_share_of_the_seeds() {
    let mut shares: BTreeMap<u8, u64> = BTreeMap::new();
    for seed in 0..SHARED_SEEDS {
        *shares.entry(answer(&inputs::case(seed).pages)).or_default() += 1;
    }
    for number in (1..=12).chain([14]) {
        let share = shares.get(&number).copied().unwrap_or(0);
        assert!(
            share >= SHARED_SEEDS / 250,
            "refusal {number} occurs {share} times: {shares:?}"
        );
    }
    let whole = shares.get(&0).copied().unwrap_or(0);
    assert!(whole >= SHARED_SEEDS / 4, "read and written {whole} times");
    assert_eq!(shares.len(), 14, "{shares:?}");
}
