//! The border with any numbers: pages that lie anywhere, starts and lengths that do not fit, rooms of any size, against the second program.

mod seeds;

use std::fmt::Debug;

use inputs::{case, Random};
use second::call::{cell_call, find_call, fresh_call, listing_call};
use second::{cell, Refusal};
use seeds::seeds;
use tollgilt::{
    cell_into, find_into, fresh_into, list_into, Cell, Field, Source, CELL_ROOM, LISTING_ROOM,
    PAGES, PAGE_ROOM, ROWS,
};

/// What stands in the room or in the list before a call, and must stand there afterwards wherever nothing was laid.
const POISONS: [u8; 2] = [0x00, 0xA5];
const LIST_POISONS: [u32; 2] = [0, 0xA5A5_A5A5];

/// Numbers that are asked for: one that many generated plans hold, and one that none does.
const NUMBERS: [u32; 2] = [2_394_428, 0];

/// Cells that are asked for, as the library and as the second program name them, with the catalogue's text: some that many generated plans have, and some that
/// none has.
const CELLS: [(usize, Field, [usize; 2], &[u8]); 6] = [
    (1, Field::Name, [cell::NAME, 0], &[b'a'; 51]),
    (
        2,
        Field::Name,
        [cell::NAME, 0],
        b"METOPROLOLSUCCINAT MUSTER 95 mg/12,5 mg Retardtabl.",
    ),
    (2, Field::Substance(1), [cell::SUBSTANCE, 1], b""),
    (3, Field::Night, [cell::NIGHT, 0], b"K"),
    (2, Field::Strength(4), [cell::STRENGTH, 4], b"K"),
    (0, Field::Form, [cell::FORM, 0], b"K"),
];

/// Compares a call with the second program, for a listing, for fresh pages, for the rows that hold a number and for cells: what is told, or the refusal, and
/// every byte of the room or number of the list. `room` says how much is lent of what the call asks for.
fn compare(
    name: &str,
    buffer: &[u8],
    starts: &[usize],
    lens: &[usize],
    room: impl Fn(usize) -> usize,
) {
    let lent = room(LISTING_ROOM);
    let lines = listing_call(buffer, starts, lens, lent);
    let lines = lines.map(|lines| (lines.len(), lines));
    same(&format!("{name}, listed"), lent, POISONS, &lines, |out| {
        list_into(buffer, starts, lens, out)
    });
    let lent = room(PAGE_ROOM);
    let pages = fresh_call(buffer, starts, lens, lent);
    let pages = pages.map(|(pages, lengths)| (nine(&lengths), pages));
    same(&format!("{name}, afresh"), lent, POISONS, &pages, |out| {
        fresh_into(buffer, starts, lens, out)
    });
    let lent = room(ROWS);
    for number in NUMBERS {
        let rows = find_call(buffer, starts, lens, number, lent);
        let rows = rows.map(|rows| (rows.len(), rows.iter().map(|&row| row as u32).collect()));
        same(
            &format!("{name}, found {number}"),
            lent,
            LIST_POISONS,
            &rows,
            |list| find_into(buffer, starts, lens, number, list),
        );
    }
    let lent = room(CELL_ROOM);
    for (row, field, [number, which], catalogue) in CELLS {
        let asked = [row, number, which];
        let shown = cell_call(buffer, starts, lens, catalogue, asked, lent);
        let shown = shown.map(|shown| (told(shown.clone()), shown.text));
        let name = format!("{name}, {field:?} of row {row}");
        same(&name, lent, POISONS, &shown, |out| {
            let shown = cell_into(buffer, starts, lens, row, field, catalogue, out);
            shown.map(|shown| shown.to_vec())
        });
    }
}

/// A cell of the second program as one of the library.
fn told(cell: cell::Cell<Vec<u8>>) -> Cell {
    Cell {
        text: cell.text,
        source: match cell.source {
            cell::Source::Neither => Source::Neither,
            cell::Source::Plan => Source::Plan,
            cell::Source::Catalogue => Source::Catalogue,
        },
        dots: cell.dots,
        zero: cell.zero,
        left_out: cell.left_out,
    }
}

/// Nine lengths, 0 behind the last page.
fn nine(lengths: &[usize]) -> [usize; PAGES] {
    let mut nine = [0; PAGES];
    nine[..lengths.len()].copy_from_slice(lengths);
    nine
}

/// A call into a room tells these numbers and lays these bytes, or numbers into a list, or is refused so, and leaves the rest as it was.
fn same<Told: PartialEq + Debug, Unit: Copy + PartialEq>(
    name: &str,
    room: usize,
    poisons: [Unit; 2],
    expected: &Result<(Told, Vec<Unit>), Refusal>,
    call: impl Fn(&mut [Unit]) -> Result<Told, tollgilt::Refusal>,
) {
    for poison in poisons {
        let mut out = vec![poison; room];
        let given = call(&mut out);
        let mut after = vec![poison; room];
        match expected {
            Ok((told, laid)) => {
                assert_eq!(given.as_ref(), Ok(told), "{name}");
                after[..laid.len()].copy_from_slice(laid);
            }
            Err(refusal) => {
                let given = given.expect_err(name);
                let numbers = [given.number(), given.page(), given.place()];
                let wanted = [refusal.number as usize, refusal.page, refusal.place];
                assert_eq!(numbers.map(|n| n as usize), wanted, "{name}");
            }
        }
        assert!(out == after, "{name}: the room");
    }
}

/// As much room as is asked for.
fn enough(asked: usize) -> usize {
    asked
}

/// The pages of a seed with some bytes before and behind each of them, and where they lie.
fn scattered(pages: &[Vec<u8>], random: &mut Random) -> (Vec<u8>, Vec<usize>, Vec<usize>) {
    let mut buffer = Vec::new();
    let mut starts = Vec::new();
    for page in pages {
        buffer.resize(buffer.len() + random.below(4), b'<');
        starts.push(buffer.len());
        buffer.extend(page);
    }
    buffer.resize(buffer.len() + random.below(2), b'>');
    (buffer, starts, pages.iter().map(Vec::len).collect())
}

/// A number near one of the edges that a start or a length has.
fn edge(size: usize, random: &mut Random) -> usize {
    let around = *random.pick(&[0, 1, size, usize::MAX, usize::MAX - size, 1 << 32, 1 << 63]);
    around
        .wrapping_add(random.below(3))
        .wrapping_sub(random.below(3))
}

#[test]
fn pages_that_lie_anywhere_in_the_buffer_are_listed_written_searched_shown_or_refused_alike() {
    for seed in seeds(2_000) {
        let mut random = Random::new(seed ^ 0xB0DE);
        let (buffer, starts, lens) = scattered(&case(seed).pages, &mut random);
        let more = random.below(3) * random.below(100);
        compare(&format!("seed {seed}"), &buffer, &starts, &lens, |asked| {
            asked + more
        });
    }
}

#[test]
fn numbers_that_do_not_fit_are_refused_like_in_the_second_program() {
    for seed in seeds(5_000) {
        let mut random = Random::new(seed);
        let (buffer, mut starts, mut lens) = scattered(&case(seed).pages, &mut random);
        for _ in 0..random.between(1, 2) {
            let list = if random.chance(50) {
                &mut starts
            } else {
                &mut lens
            };
            match (random.below(4), list.len()) {
                (0, _) => list.push(random.below(2)),
                (1, 1..) => drop(list.pop()),
                (_, count @ 1..) => list[random.below(count)] = edge(buffer.len(), &mut random),
                _ => {}
            }
        }
        let rooms = [enough, enough, |asked| asked - 1, |_| 1, |_| 0];
        let room = random.pick::<fn(usize) -> usize>(&rooms);
        compare(&format!("seed {seed}"), &buffer, &starts, &lens, room);
    }
}

#[test]
fn a_room_one_byte_or_number_too_small_is_refused_with_1_and_untouched() {
    let page = case(0).pages.concat();
    for less in [1, CELL_ROOM, 100, ROWS - 1, ROWS, PAGE_ROOM - 1, PAGE_ROOM] {
        compare("a small room", &page, &[0], &[page.len()], |asked| {
            asked.saturating_sub(less)
        });
    }
    compare("no room", &page, &[0], &[page.len()], |_| 0);
}

#[test]
fn empty_slices_are_answered_wherever_they_point() {
    let nothing: Vec<u8> = Vec::new();
    let no_numbers: Vec<usize> = Vec::new();
    compare(
        "no page, no buffer",
        &nothing,
        &no_numbers,
        &no_numbers,
        enough,
    );
    compare("an empty page in no buffer", &nothing, &[0], &[0], enough);
    compare(
        "an empty page behind no buffer",
        &nothing,
        &[1],
        &[0],
        enough,
    );
    compare("a start and no length", b"<MP/>", &[0], &no_numbers, enough);
    compare("a length and no start", b"<MP/>", &no_numbers, &[5], enough);
    compare("no room", b"<MP/>", &[0], &[5], |_| 0);
}

#[test]
fn an_empty_page_may_lie_at_the_end_of_the_buffer_but_not_behind_it() {
    for start in [4, 5, 6, usize::MAX] {
        compare("an empty page", b"<MP/>", &[start], &[0], enough);
    }
}

#[test]
fn starts_and_lengths_that_add_up_beyond_the_largest_number_are_refused() {
    let largest = usize::MAX;
    for (start, length) in [
        (largest, 1),
        (largest, 5),
        (largest - 3, 5),
        (largest, largest),
        (1, largest),
        (5, largest - 4),
        (1 << 63, 1 << 63),
        ((1 << 63) + 1, 1 << 63),
    ] {
        compare("a sum that wraps", b"<MP/>", &[start], &[length], enough);
    }
}

#[test]
fn any_number_of_pages_is_answered() {
    let page = b"<MP/>";
    for count in [0, 1, 2, 8, 9, 10, 11, 255, 256, 257, 1_000, 65_536] {
        compare(
            "so many pages",
            page,
            &vec![0; count],
            &vec![5; count],
            enough,
        );
        compare(
            "one start more",
            page,
            &vec![0; count + 1],
            &vec![5; count],
            enough,
        );
    }
}

#[test]
fn a_thread_with_256_kilobytes_of_stack_can_make_every_call() {
    let thread = std::thread::Builder::new().stack_size(256 << 10);
    let calls = || {
        for seed in 0..20 {
            let (buffer, starts, lens) = scattered(&case(seed).pages, &mut Random::new(seed));
            let mut out = vec![0; LISTING_ROOM];
            let listed = list_into(&buffer, &starts, &lens, &mut out).is_ok();
            let written = fresh_into(&buffer, &starts, &lens, &mut out).is_ok();
            let found = find_into(&buffer, &starts, &lens, 2_394_428, &mut [0; ROWS]).is_ok();
            let shown = cell_into(&buffer, &starts, &lens, 1, Field::Name, b"K", &mut out).is_ok();
            assert!(listed || !written && !shown, "seed {seed}");
            assert_eq!(listed, found, "seed {seed}");
        }
    };
    thread.spawn(calls).unwrap().join().unwrap();
}
