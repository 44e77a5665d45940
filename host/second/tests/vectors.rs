//! The vectors that the repository carries: every listing, every fresh page, every answer of an index and every cell as written there.

use inputs::vectors::{carried, carried_cells, carried_index, named, named_cells, named_index};
use inputs::vectors::{CellVector, IndexVector, Kth, ShownCell, Source, Vector};
use second::index::{Held, Lent};
use second::{cell_of, find, index_of, lay, plancell, planfind, planlist, read, write};
use second::{Pair, Refusal};
use std::collections::BTreeSet;

/// The kinds of case that the vectors have.
const KINDS: [&str; 16] = [
    "bad_byte",
    "birth",
    "bytes",
    "count",
    "field",
    "join",
    "many",
    "markup",
    "missing",
    "pzn",
    "rows",
    "size",
    "structure",
    "valid",
    "version",
    "writer",
];

/// The kinds of case that the vectors of an index have: what was done to the index asked with.
const INDEX_KINDS: [&str; 10] = [
    "empty", "foreign", "last", "missing", "number", "right", "row", "swapped", "twice", "zero",
];

/// The kinds of case that the vectors of a cell have.
const CELL_KINDS: [&str; 2] = ["cut", "whole"];

/// What is wrong with the answers to one case, if anything is.
fn faults(vector: &Vector) -> Vec<String> {
    let mut faults = Vec::new();
    let place = format!("line {} ({})", vector.line, vector.kind);
    let listing = planlist(&inputs::joined(&vector.pages));
    if listing != vector.listing {
        let (given, right) = (listing.escape_ascii(), vector.listing.escape_ascii());
        faults.push(format!(
            "{place}: planlist prints\n  {given}\nbut must print\n  {right}"
        ));
    }
    let pages: Vec<&[u8]> = vector.pages.iter().map(Vec::as_slice).collect();
    let fresh = read(&pages).and_then(|plan| write(&plan)).map_err(numbers);
    if fresh != vector.fresh {
        let (given, right) = (shown(&fresh), shown(&vector.fresh));
        faults.push(format!(
            "{place}: the fresh pages are\n  {given}\nbut must be\n  {right}"
        ));
    }
    faults
}

fn shown(fresh: &Result<Vec<Vec<u8>>, [usize; 3]>) -> String {
    match fresh {
        Err(refusal) => format!("{refusal:?}"),
        Ok(pages) => {
            let shown: Vec<String> = pages
                .iter()
                .map(|page| page.escape_ascii().to_string())
                .collect();
            shown.join("\n  ")
        }
    }
}

/// A refusal as the vectors have it.
fn numbers(refusal: Refusal) -> [usize; 3] {
    [refusal.number.into(), refusal.page, refusal.place]
}

/// What is wrong with the answers to one case of an index, if anything is.
fn index_faults(vector: &IndexVector) -> Vec<String> {
    let place = format!("line {} ({})", vector.line, vector.kind);
    let pages: Vec<&[u8]> = vector.pages.iter().map(Vec::as_slice).collect();
    let rows = match read(&pages) {
        Ok(plan) => lay(&plan).0.rows,
        Err(refusal) => return vec![format!("{place}: refused with {refusal:?}")],
    };
    let pair = |[number, row]: &[u32; 2]| Pair {
        number: *number,
        row: *row as usize,
    };
    let built: Vec<Pair> = vector.built.iter().map(pair).collect();
    let asked: Vec<Pair> = vector.asked.iter().map(pair).collect();
    let lent = Lent {
        rows: &rows,
        row_count: rows.len(),
        pairs: &asked,
        index_length: asked.len(),
    };
    let right = vector.held.map(|held| {
        held.map(|[first, count]| Held {
            first: first as usize,
            count: count as usize,
        })
    });
    let held = lent.held(vector.number).map_err(numbers);
    let kth = lent.kth(vector.number, vector.k as usize).map_err(numbers);
    let kth = kth.map(|kth| match kth {
        second::index::Kth::Row(row) => Kth::Row(row as u32),
        second::index::Kth::None => Kth::None,
        second::index::Kth::Absent => Kth::Absent,
    });
    let on_plan = built.iter().filter(|pair| pair.number == vector.number);
    let found: Vec<usize> = on_plan.map(|pair| pair.row).collect();
    let lines = found.iter().map(|row| format!("row={row}\n"));
    let printed = format!("held={}\n{}", found.len(), lines.collect::<String>());
    let input = [
        vector.number.to_string().into_bytes(),
        inputs::joined(&vector.pages),
    ];
    let same = [
        ("the index", index_of(&rows) == built),
        ("the first row or the count", held == right),
        ("the k-th row", kth == vector.kth),
        ("the rows found", find(&pages, vector.number) == Ok(found)),
        (
            "what planfind prints",
            planfind(&input.join(&0)) == printed.as_bytes(),
        ),
    ];
    let wrong = same.iter().filter(|(_, same)| !same);
    wrong
        .map(|(what, _)| format!("{place}: {what} is not as written"))
        .collect()
}

/// What a vector's cell shows, or the refusal.
fn shown_cell(vector: &CellVector) -> Result<ShownCell, [usize; 3]> {
    let pages: Vec<&[u8]> = vector.pages.iter().map(Vec::as_slice).collect();
    let CellVector {
        catalogue,
        row,
        field,
        which,
        ..
    } = vector;
    let cell = cell_of(&pages, catalogue, *row, *field, *which).map_err(numbers)?;
    Ok(ShownCell {
        text: cell.text,
        source: match cell.source {
            second::cell::Source::Neither => Source::None,
            second::cell::Source::Plan => Source::Plan,
            second::cell::Source::Catalogue => Source::Catalogue,
        },
        cut: cell.dots,
        zero: cell.zero,
        left_out: cell.left_out,
    })
}

/// What plancell must print for a vector.
fn printed_cell(vector: &CellVector) -> Vec<u8> {
    let ShownCell {
        text,
        source,
        cut,
        zero,
        left_out,
    } = match &vector.shown {
        Ok(shown) => shown,
        Err([number, page, place]) => {
            return format!("refused={number}\npage={page}\nplace={place}\n").into_bytes()
        }
    };
    let source = match source {
        Source::None => 0,
        Source::Plan => 1,
        Source::Catalogue => 2,
    };
    let [cut, zero] = [cut, zero].map(|mark| u8::from(*mark));
    let lines = format!("source={source}\ncut={cut}\nleft={left_out}\nzero={zero}\ntext=");
    [lines.as_bytes(), text, b"\n"].concat()
}

/// What is wrong with the cell of one case, if anything is.
fn cell_faults(vector: &CellVector) -> Vec<String> {
    let mut faults = Vec::new();
    let place = format!("line {} ({})", vector.line, vector.kind);
    let (given, right) = (shown_cell(vector), &vector.shown);
    if given != *right {
        faults.push(format!("{place}: {given:?} but must be {right:?}"));
    }
    let printed = plancell(&vector.input());
    if printed != printed_cell(vector) {
        let printed = printed.escape_ascii();
        faults.push(format!("{place}: plancell prints {printed} for {right:?}"));
    }
    faults
}

fn check(faults: Vec<String>) {
    let first = faults
        .iter()
        .take(5)
        .cloned()
        .collect::<Vec<_>>()
        .join("\n");
    assert!(
        faults.is_empty(),
        "{} answers are wrong, the first of them:\n{first}",
        faults.len()
    );
}

#[test]
fn every_carried_vector_is_answered_as_written() {
    check(carried().iter().flat_map(faults).collect());
}

#[test]
fn carried_vectors_have_every_kind_and_every_refusal() {
    let vectors = carried();
    assert_eq!(vectors.len(), 2_400);
    let kinds: BTreeSet<&str> = vectors.iter().map(|vector| vector.kind.as_str()).collect();
    assert_eq!(kinds, KINDS.into());
    let refused = vectors
        .iter()
        .filter_map(|vector| vector.fresh.as_ref().err());
    let numbers: BTreeSet<usize> = refused.map(|refusal| refusal[0]).collect();
    assert_eq!(numbers, (1..=12).chain([14]).collect());
    let fresh: BTreeSet<usize> = vectors
        .iter()
        .flat_map(|vector| vector.fresh.iter().map(Vec::len))
        .collect();
    assert!(
        [1, 2, 3, 9].iter().all(|count| fresh.contains(count)),
        "{fresh:?}"
    );
}

#[test]
fn carried_birth_dates_and_package_numbers_are_read_and_refused() {
    let vectors = carried();
    let number = |vector: &Vector| vector.fresh.as_ref().err().map_or(0, |refusal| refusal[0]);
    let answers = |kind: &str| -> BTreeSet<usize> {
        let cases = vectors.iter().filter(|vector| vector.kind == kind);
        cases.map(number).collect()
    };
    // Sheets that differ in their birth date are told apart by 9.
    assert_eq!(answers("birth"), [0, 7, 9].into());
    assert_eq!(answers("pzn"), [0, 7].into());
}

#[test]
fn every_carried_vector_of_an_index_is_answered_as_written() {
    check(carried_index().iter().flat_map(index_faults).collect());
}

#[test]
fn carried_vectors_of_an_index_have_every_kind_and_every_answer() {
    let vectors = carried_index();
    assert_eq!(vectors.len(), 400);
    let kinds: BTreeSet<&str> = vectors.iter().map(|vector| vector.kind.as_str()).collect();
    assert_eq!(kinds, INDEX_KINDS.into());
    let count = |answer: fn(&IndexVector) -> bool| vectors.iter().filter(|it| answer(it)).count();
    let counts = [
        count(|vector| vector.kth == Err([20, 0, 0])),
        count(|vector| vector.kth == Ok(Kth::Absent)),
        count(|vector| vector.kth == Ok(Kth::None)),
        count(|vector| matches!(vector.kth, Ok(Kth::Row(_)))),
        count(|vector| matches!(vector.kth, Ok(Kth::Row(_))) && vector.k > 1),
        count(|vector| vector.pages.len() > 1),
    ];
    assert!(counts.iter().all(|count| *count >= 5), "{counts:?}");
}

#[test]
fn every_carried_vector_of_a_cell_is_answered_as_written() {
    check(carried_cells().iter().flat_map(cell_faults).collect());
}

#[test]
fn carried_vectors_of_a_cell_have_every_kind_and_every_answer() {
    let vectors = carried_cells();
    assert_eq!(vectors.len(), 400);
    let kinds: BTreeSet<&str> = vectors.iter().map(|vector| vector.kind.as_str()).collect();
    assert_eq!(kinds, CELL_KINDS.into());
    let count = |answer: &dyn Fn(&ShownCell) -> bool| {
        let shown = vectors.iter().flat_map(|vector| &vector.shown);
        shown.filter(|shown| answer(shown)).count()
    };
    let counts = [
        vectors.len() - count(&|_| true),
        count(&|shown| shown.source == Source::Plan),
        count(&|shown| shown.source == Source::Catalogue && !shown.cut),
        count(&|shown| shown.source == Source::None),
        count(&|shown| shown.zero),
    ];
    assert!(counts.iter().all(|count| *count >= 5), "{counts:?}");
}

#[test]
fn carried_cells_are_cut_at_each_edge_and_behind_a_blank() {
    let vectors = carried_cells();
    // All n - 3 bytes, and up to a blank that is the last of them or the first that counts.
    let lengths = [[47, 46, 37], [77, 76, 67], [12, 11, 2], [4, 3, 1]];
    for (field, lengths) in (1..).zip(lengths) {
        let cells = vectors.iter().filter(|vector| vector.field == field);
        let cut = cells.flat_map(|vector| &vector.shown).filter(|it| it.cut);
        let cut: Vec<&[u8]> = cut.map(|shown| &shown.text[..]).collect();
        let shown: BTreeSet<usize> = cut.iter().map(|text| text.len()).collect();
        assert!(shown.is_superset(&lengths.into()), "{field}: {shown:?}");
        assert!(cut.iter().any(|text| text.ends_with(b" ")), "{field}");
    }
}

/// The environment variable TOLLGILT_VECTORS may name a file of many more vectors.
#[test]
fn every_vector_of_the_named_file_is_answered_as_written() {
    check(named().iter().flat_map(faults).collect());
    check(named_index().iter().flat_map(index_faults).collect());
    check(named_cells().iter().flat_map(cell_faults).collect());
}
