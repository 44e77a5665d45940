//! What planlist, planfresh, planfind and plancell print, on the vectors, at the edges of what they look at, and on a bounded number of seeds; the binary
//! `compare` runs more.

use compare::printing::{differences, PROGRAMS};
use inputs::joined;
use inputs::vectors::{carried, carried_cells, named, named_cells};

#[test]
fn the_vectors_are_printed_as_the_second_program_does() {
    let [planlist, planfresh, _, plancell] = PROGRAMS;
    let mut found = Vec::new();
    for vector in carried().iter().chain(&named()) {
        let what = format!("line {}", vector.line);
        let input = joined(&vector.pages);
        found.extend(planlist.compared(&what, &input));
        found.extend(planfresh.compared(&what, &input));
    }
    for vector in carried_cells().iter().chain(&named_cells()) {
        let what = format!("line {}", vector.line);
        found.extend(plancell.compared(&what, &vector.input()));
    }
    assert_eq!(found, Vec::<String>::new());
}

#[test]
fn inputs_at_the_edges_are_printed_as_the_second_program_does() {
    let mut found = Vec::new();
    for program in PROGRAMS {
        for (at, input) in (program.edges)().iter().enumerate() {
            found.extend(program.compared(&format!("edge {at}"), input));
        }
    }
    assert_eq!(found, Vec::<String>::new());
}

#[test]
fn generated_inputs_are_printed_as_the_second_program_does() {
    let found: Vec<String> = (0..4_000).flat_map(differences).take(10).collect();
    assert_eq!(found, Vec::<String>::new());
}
