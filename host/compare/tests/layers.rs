//! The proved layers against the second program, on a bounded number of seeds; the binary `compare` runs more.

use compare::indexing::Tally;
use compare::packages;
use compare::rounds::{differences, set, tables};
use inputs::vectors::{carried, carried_cells, named, named_cells};

#[test]
fn bytes_elements_and_fields_are_what_the_second_program_says() {
    assert_eq!(tables(), Vec::<String>::new());
}

#[test]
fn package_numbers_are_what_the_second_program_says_in_a_sample_of_all_numbers() {
    let sample = (0..100_000).chain((0..packages::BEYOND + 10_000).step_by(997));
    let mut tally = Tally::new();
    let found = sample.flat_map(|number| packages::differences(number, &mut tally));
    assert_eq!(found.take(10).collect::<Vec<_>>(), Vec::<String>::new());
    assert!(tally["kept"] > 40_000, "{tally:?}");
    assert!(tally["spellings"] > 9 * tally["kept"], "{tally:?}");
}

#[test]
fn no_layer_differs_from_the_second_program_on_generated_inputs() {
    let (mut plans, mut found) = (0, Vec::new());
    for seed in 0..10_000 {
        let (answer, differing) = differences(seed);
        plans += u32::from(answer == 0);
        found.extend(differing);
    }
    assert_eq!(found, Vec::<String>::new());
    assert!(plans > 4_000, "{plans} sets are plans");
}

#[test]
fn no_layer_differs_from_the_second_program_on_the_vectors() {
    let mut found = Vec::new();
    for vector in carried().iter().chain(&named()) {
        set(&format!("line {}", vector.line), &vector.pages, &mut found);
    }
    for vector in carried_cells().iter().chain(&named_cells()) {
        let title = format!("line {}, of a cell", vector.line);
        set(&title, &vector.pages, &mut found);
    }
    assert_eq!(found, Vec::<String>::new());
}
