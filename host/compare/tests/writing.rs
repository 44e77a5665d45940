//! Writing, the collector and the cells against the second program, on the vectors and a bounded number of seeds; the binary `compare` runs more.

use compare::indexing::Tally;
use compare::{cells, collecting, writing};
use inputs::case;
use inputs::vectors::{carried, carried_cells, named, named_cells};

/// The first differences.
fn some(found: impl Iterator<Item = String>) -> Vec<String> {
    found.take(10).collect()
}

#[test]
fn the_vectors_are_written_as_they_say() {
    let mut written = 0;
    let mut found = Vec::new();
    for vector in carried().iter().chain(&named()) {
        if let Some(differences) = writing::vector(vector) {
            written += 1;
            found.extend(differences);
        }
    }
    assert_eq!(found, Vec::<String>::new());
    assert!(written > 400, "{written}");
}

#[test]
fn the_pages_of_the_vectors_are_collected_as_the_second_program_does() {
    let mut found = Vec::new();
    for vector in carried().iter().chain(&named()) {
        found.extend(collecting::set(
            &format!("line {}", vector.line),
            &vector.pages,
        ));
    }
    assert_eq!(found, Vec::<String>::new());
}

#[test]
fn the_cells_of_the_vectors_are_what_the_second_program_shows() {
    let mut found = Vec::new();
    for vector in carried().into_iter().chain(named()) {
        let slices: Vec<&[u8]> = vector.pages.iter().map(Vec::as_slice).collect();
        if let Ok(plan) = second::read(&slices) {
            let numbers = writing::lent(&plan);
            found.extend(cells::all(&format!("line {}", vector.line), &numbers));
        }
    }
    assert_eq!(some(found.into_iter()), Vec::<String>::new());
}

#[test]
fn the_vectors_of_a_cell_are_shown_as_they_say() {
    let vectors = carried_cells().into_iter().chain(named_cells());
    let found = vectors.flat_map(|vector| cells::vector(&vector));
    assert_eq!(some(found), Vec::<String>::new());
}

#[test]
fn generated_plans_are_written_as_the_second_program_does() {
    let sets = (0..6_000).map(|seed| writing::fresh(&format!("seed {seed}"), &case(seed).pages));
    let plans: Vec<Vec<String>> = sets.flatten().collect();
    assert!(plans.len() > 2_000, "{}", plans.len());
    assert_eq!(some(plans.into_iter().flatten()), Vec::<String>::new());
}

#[test]
fn plans_in_numbers_are_written_or_refused_as_the_second_program_does() {
    let mut counts = [0; 15];
    let mut found = Vec::new();
    for seed in 0..4_000 {
        let (told, differences) = writing::made_up(seed);
        counts[told.number as usize] += 1;
        found.extend(differences);
    }
    assert_eq!(some(found.into_iter()), Vec::<String>::new());
    let given = |number: &usize| counts[*number] > 100;
    assert!([0, 1, 13, 14].iter().all(given), "{counts:?}");
}

#[test]
fn a_collector_answers_as_the_second_program_does() {
    let mut tally = collecting::Tally::new();
    let found = (0..500).flat_map(|seed| collecting::differences(seed, &mut tally));
    assert_eq!(some(found), Vec::<String>::new());
    let pages = [0, 1, 2, 3, 4, 5, 6, 7, 9, 10, 20].map(|number| ("page", number));
    let readings = [0, 1, 11, 12].map(|number| ("reading", number));
    for answer in pages.iter().chain(&readings) {
        assert!(tally.contains_key(answer), "{answer:?} in {tally:?}");
    }
}

#[test]
fn cells_show_what_the_second_program_shows() {
    let mut tally = Tally::new();
    let found = (0..300).flat_map(|seed| cells::differences(seed, &mut tally));
    assert_eq!(some(found), Vec::<String>::new());
    let cuts = ["whole", "cut", "cut before a blank"];
    let shown = cuts.map(|cut| [format!("own, {cut}"), format!("catalogue's, {cut}")]);
    let others = ["neither, whole".to_string(), "refused".to_string()];
    for what in shown.as_flattened().iter().chain(&others) {
        assert!(tally.get(what) > Some(&50), "{what} in {tally:?}");
    }
}
