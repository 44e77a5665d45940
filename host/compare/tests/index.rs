//! The index of package numbers against the second program, on the vectors and a bounded number of seeds; the binary `compare` runs more.

use compare::indexing::{differences, vector, Tally};
use inputs::vectors::{carried_index, named_index};

#[test]
fn the_vectors_of_an_index_are_answered_as_they_say() {
    let vectors = carried_index().into_iter().chain(named_index());
    let found: Vec<String> = vectors.flat_map(|case| vector(&case)).take(10).collect();
    assert_eq!(found, Vec::<String>::new());
}

#[test]
fn indexes_are_built_and_asked_as_the_second_program_does() {
    let mut tally = Tally::new();
    let found = (0..3_000).flat_map(|seed| differences(seed, &mut tally));
    assert_eq!(found.take(10).collect::<Vec<_>>(), Vec::<String>::new());
    let questions = [
        "refused with 1",
        "refused with 1 for its list",
        "refused with 20",
        "absent",
        "none",
        "a row",
    ];
    let questions = questions.map(|answer| format!("question, {answer}"));
    let answers = |what: &str, numbers: &[u32]| {
        let answer = |number: &u32| format!("{what}, answer {number}");
        numbers.iter().map(answer).collect::<Vec<_>>()
    };
    let expected = [
        questions.to_vec(),
        answers("built", &[0, 1]),
        answers("reading", &[0, 1, 4, 7, 9, 12]),
        answers("collected", &[0, 1, 11, 12]),
    ];
    for what in expected.concat() {
        assert!(tally.get(&what) > Some(&5), "{what} in {tally:?}");
    }
}
