//! The index of package numbers: how it is built, what is asked of it, and refusal 20.

mod sample;
use sample::*;
use second::call::*;
use second::index::{build, Held, Kth, Lent};
use second::layout::RowNumbers;
use second::{find, index_of, lay, Collector, Pair};

const ONE: (u8, usize, usize) = (1, 0, 0);
const TWENTY: (u8, usize, usize) = (20, 0, 0);

/// Row records by the letters of their kinds and their package numbers; `-` is no kind.
fn rows(rows: &[(u8, u32)]) -> Vec<RowNumbers> {
    let row = |&(kind, package): &(u8, u32)| RowNumbers {
        package,
        ..RowNumbers::empty(kind)
    };
    rows.iter().map(row).collect()
}

/// Pairs of a number and a row.
fn pairs(pairs: &[(u32, usize)]) -> Vec<Pair> {
    let pair = |&(number, row): &(u32, usize)| Pair { number, row };
    pairs.iter().map(pair).collect()
}

/// Five medication rows, one of them without a number, and a row of each other kind that holds one.
fn nine() -> Vec<RowNumbers> {
    rows(&[
        (b'M', 23),
        (b'H', 17),
        (b'M', 17),
        (b'M', 0),
        (b'R', 23),
        (b'M', 23),
        (b'X', 46),
        (b'-', 23),
        (b'M', 17),
    ])
}

/// The index of [`nine`].
const NINE: [(u32, usize); 4] = [(17, 3), (17, 9), (23, 1), (23, 6)];

/// All that is lent when rows are asked with an index, and all of both counts.
fn lent<'a>(rows: &'a [RowNumbers], pairs: &'a [Pair]) -> Lent<'a> {
    Lent {
        rows,
        row_count: rows.len(),
        pairs,
        index_length: pairs.len(),
    }
}

/// The refusals of the three questions, which must be one and the same.
fn refused(lent: Lent, number: u32, k: usize) -> (u8, usize, usize) {
    let refusals = [
        triple(lent.all(number)),
        triple(lent.held(number)),
        triple(lent.kth(number, k)),
    ];
    assert!(refusals.iter().all(|refusal| *refusal == refusals[0]));
    refusals[0]
}

#[test]
fn an_index_is_ascending_by_number_and_equal_numbers_by_row() {
    assert_eq!(index_of(&nine()), pairs(&NINE));
    let backwards = rows(&[(b'M', 300), (b'M', 200), (b'M', 3), (b'M', 200)]);
    let wanted = [(3, 3), (200, 2), (200, 4), (300, 1)];
    assert_eq!(index_of(&backwards), pairs(&wanted));
}

#[test]
fn only_medication_rows_with_a_number_are_in_an_index() {
    for kind in [b'H', b'R', b'X', b'-', 0, b'm'] {
        assert_eq!(index_of(&rows(&[(kind, 17)])), [], "{kind}");
    }
    assert_eq!(index_of(&rows(&[(b'M', 0)])), []);
    assert_eq!(index_of(&[]), []);
    // Any number is taken; its check digit is not judged.
    let odd = rows(&[(b'M', u32::MAX), (b'M', 1), (b'M', 100_000_000)]);
    let wanted = [(1, 2), (100_000_000, 3), (u32::MAX, 1)];
    assert_eq!(index_of(&odd), pairs(&wanted));
}

#[test]
fn an_index_of_256_rows_has_256_pairs() {
    let equal = vec![(b'M', 17); 256];
    let index = index_of(&rows(&equal));
    assert!(index.iter().map(|pair| pair.row).eq(1..=256));
    assert!(index.iter().all(|pair| pair.number == 17));
    let falling: Vec<(u8, u32)> = (1..=256).rev().map(|number| (b'M', number)).collect();
    let index = index_of(&rows(&falling));
    assert!(index.iter().map(|pair| pair.row).eq((1..=256).rev()));
}

#[test]
fn an_index_is_built_for_as_many_rows_as_count() {
    let rows = nine();
    assert_eq!(build(&rows, 9, 256), Ok(pairs(&NINE)));
    assert_eq!(build(&rows, 5, 300), Ok(pairs(&[(17, 3), (23, 1)])));
    assert_eq!(build(&rows, 0, 256), Ok(Vec::new()));
    assert_eq!(build(&[], 0, 256), Ok(Vec::new()));
}

#[test]
fn building_is_refused_with_1_for_more_rows_than_lent_or_than_256_or_less_room() {
    let rows = nine();
    assert_eq!(triple(build(&rows, 10, 256)), ONE);
    assert_eq!(triple(build(&rows, usize::MAX, 256)), ONE);
    assert_eq!(triple(build(&rows, 9, 255)), ONE);
    assert_eq!(triple(build(&rows, 0, 255)), ONE);
    let many = vec![rows[0].clone(); 300];
    assert_eq!(triple(build(&many, 257, 300)), ONE);
    assert_eq!(build(&many, 256, 256).map(|index| index.len()), Ok(256));
}

#[test]
fn a_number_is_answered_with_its_first_row_its_count_and_each_row() {
    let (rows, index) = (nine(), pairs(&NINE));
    let lent = lent(&rows, &index);
    for (number, held) in [(17, [3, 9]), (23, [1, 6])] {
        let [first, last] = held;
        assert_eq!(lent.held(number), Ok(Some(Held { first, count: 2 })));
        assert_eq!(lent.all(number), Ok(held.to_vec()));
        assert_eq!(lent.kth(number, 1), Ok(Kth::Row(first)));
        assert_eq!(lent.kth(number, 2), Ok(Kth::Row(last)));
    }
}

#[test]
fn k_of_0_or_above_the_count_is_answered_none() {
    let (rows, index) = (nine(), pairs(&NINE));
    for k in [0, 3, 4, 256, usize::MAX] {
        assert_eq!(lent(&rows, &index).kth(17, k), Ok(Kth::None), "{k}");
    }
}

#[test]
fn a_number_that_no_medication_row_holds_is_not_on_the_plan_whatever_k() {
    let (rows, index) = (nine(), pairs(&NINE));
    let lent = lent(&rows, &index);
    // 46 stands in a note; 0 in a medication row without a number; three differ from 17 in one bit alone.
    let far = [8, 16, 31].map(|place| 17 + (1 << place));
    for number in [0, 1, 16, 18, 22, 24, 46, u32::MAX].into_iter().chain(far) {
        assert_eq!(lent.held(number), Ok(None), "{number}");
        assert_eq!(lent.all(number), Ok(Vec::new()), "{number}");
        for k in [0, 1, 2, 256, usize::MAX] {
            assert_eq!(lent.kth(number, k), Ok(Kth::Absent), "{number}, {k}");
        }
    }
}

#[test]
fn without_rows_no_number_is_on_the_plan() {
    let lent = lent(&[], &[]);
    assert_eq!(lent.held(17), Ok(None));
    assert_eq!(lent.kth(17, 1), Ok(Kth::Absent));
    assert_eq!(lent.all(17), Ok(Vec::new()));
}

#[test]
fn rows_and_pairs_lent_beyond_their_counts_are_not_looked_at() {
    let mut rows = nine();
    rows.extend(self::rows(&[(b'M', 17), (b'M', 19)]));
    let index = pairs(&[(17, 3), (17, 9), (23, 1), (23, 6), (0, 0), (17, 10)]);
    let lent = Lent {
        rows: &rows,
        row_count: 9,
        pairs: &index,
        index_length: 4,
    };
    assert_eq!(lent.all(17), Ok(vec![3, 9]));
    assert_eq!(lent.all(19), Ok(Vec::new()));
    let more_rows = Lent {
        row_count: 10,
        ..lent
    };
    assert_eq!(refused(more_rows, 23, 1), TWENTY);
}

#[test]
fn an_index_that_is_not_exactly_that_of_the_rows_is_refused_with_20() {
    let rows = nine();
    let wrong: [(&str, &[(u32, usize)]); 18] = [
        ("empty", &[]),
        ("first missing", &[(17, 9), (23, 1), (23, 6)]),
        ("last missing", &[(17, 3), (17, 9), (23, 1)]),
        ("twice", &[(17, 3), (17, 3), (17, 9), (23, 1), (23, 6)]),
        ("twice for another", &[(17, 3), (17, 3), (23, 1), (23, 6)]),
        ("equal by row", &[(17, 9), (17, 3), (23, 1), (23, 6)]),
        ("last equal by row", &[(17, 3), (17, 9), (23, 6), (23, 1)]),
        ("numbers falling", &[(23, 1), (23, 6), (17, 3), (17, 9)]),
        ("by row", &[(23, 1), (17, 3), (23, 6), (17, 9)]),
        ("other number", &[(16, 3), (17, 9), (23, 1), (23, 6)]),
        ("other last number", &[(17, 3), (17, 9), (23, 1), (24, 6)]),
        ("other row", &[(17, 3), (17, 9), (23, 1), (23, 7)]),
        ("row from 0", &[(17, 2), (17, 8), (23, 0), (23, 5)]),
        (
            "row that is not there",
            &[(17, 3), (17, 9), (23, 1), (23, 6), (23, 10)],
        ),
        ("heading", &[(17, 2), (17, 3), (17, 9), (23, 1), (23, 6)]),
        ("no kind", &[(17, 3), (17, 9), (23, 1), (23, 6), (23, 8)]),
        ("number 0", &[(0, 4), (17, 3), (17, 9), (23, 1), (23, 6)]),
        (
            "one too many",
            &[(17, 3), (17, 9), (23, 1), (23, 6), (99_999_999, 256)],
        ),
    ];
    for (what, index) in wrong {
        let index = pairs(index);
        for (number, k) in [(17, 1), (23, 2), (17, 0), (0, 1), (46, 1)] {
            assert_eq!(refused(lent(&rows, &index), number, k), TWENTY, "{what}");
        }
    }
}

#[test]
fn an_index_is_stale_once_a_row_changes() {
    let index = pairs(&NINE);
    let stale = |change: fn(&mut Vec<RowNumbers>)| {
        let mut rows = nine();
        change(&mut rows);
        refused(lent(&rows, &index), 17, 1)
    };
    assert_eq!(stale(|_| {}), (0, 0, 0));
    assert_eq!(stale(|rows| rows[2].package = 18), TWENTY);
    assert_eq!(stale(|rows| rows[2].package = 0), TWENTY);
    assert_eq!(stale(|rows| rows[3].package = 17), TWENTY);
    assert_eq!(stale(|rows| rows[2].kind = b'X'), TWENTY);
    assert_eq!(stale(|rows| rows[1].kind = b'M'), TWENTY);
    assert_eq!(stale(|rows| rows.swap(0, 2)), TWENTY);
    assert_eq!(stale(|rows| drop(rows.remove(3))), TWENTY);
    assert_eq!(stale(|rows| drop(rows.pop())), TWENTY);
    assert_eq!(stale(|rows| rows.push(rows[2].clone())), TWENTY);
    // Of the rest of a row nothing matters, nor where rows without a number stand.
    assert_eq!(stale(|rows| rows.swap(0, 5)), (0, 0, 0));
    assert_eq!(stale(|rows| rows[1].package = 5), (0, 0, 0));
    assert_eq!(stale(|rows| rows[2].parts.clear()), (0, 0, 0));
    assert_eq!(stale(|rows| rows.push(rows[3].clone())), (0, 0, 0));
}

#[test]
fn too_many_rows_or_pairs_are_refused_with_1_before_20() {
    let rows = nine();
    for index in [pairs(&NINE), pairs(&NINE[1..]), Vec::new()] {
        let whole = lent(&rows, &index);
        for row_count in [10, 256, 257, usize::MAX] {
            assert_eq!(refused(Lent { row_count, ..whole }, 17, 1), ONE);
        }
        for index_length in [index.len() + 1, 256, 257, usize::MAX] {
            let longer = Lent {
                index_length,
                ..whole
            };
            assert_eq!(refused(longer, 17, 1), ONE);
        }
    }
    let many = vec![rows[0].clone(); 300];
    let index: Vec<Pair> = (1..=300).map(|row| Pair { number: 23, row }).collect();
    let of = |row_count, index_length| Lent {
        rows: &many,
        row_count,
        pairs: &index,
        index_length,
    };
    assert_eq!(refused(of(257, 257), 23, 1), ONE);
    assert_eq!(refused(of(257, 0), 23, 1), ONE);
    assert_eq!(refused(of(256, 257), 23, 1), TWENTY);
    assert_eq!(refused(of(256, 301), 23, 1), ONE);
    let all = Held {
        first: 1,
        count: 256,
    };
    assert_eq!(of(256, 256).held(23), Ok(Some(all)));
    assert_eq!(of(256, 256).kth(23, 256), Ok(Kth::Row(256)));
    assert_eq!(of(256, 256).kth(23, 257), Ok(Kth::None));
}

/// Two pages whose rows are a heading, 2394428, a note, 17, 2394428, an M without a number, and 17.
fn two_pages() -> [String; 2] {
    [
        numbered(
            1,
            2,
            "<S c='412'><M p='02394428'/><X t='x'/><M p='17'/></S>",
        ),
        numbered(2, 2, "<S><M p='2394428'/><M a='x'/><M p='00000017'/></S>"),
    ]
}

/// The index of [`two_pages`].
const TWO: [(u32, usize); 4] = [(17, 4), (17, 7), (2_394_428, 2), (2_394_428, 5)];

/// The pages in one buffer, the second first, with their starts and lengths.
fn buffer() -> (Vec<u8>, [usize; 2], [usize; 2]) {
    let [one, two] = two_pages().map(|page| bytes(&page));
    let starts = [0, two.len()];
    let lengths = [two.len(), one.len()];
    ([two, one].concat(), starts, lengths)
}

#[test]
fn an_index_is_built_with_the_plan_that_pages_show() {
    let (buffer, starts, lengths) = buffer();
    let (numbers, text) = read_call(&buffer, &starts, &lengths, 256, 12_600).unwrap();
    assert_eq!(
        read_indexed_call(&buffer, &starts, &lengths, 256, 12_600, 256),
        Ok((numbers, text, pairs(&TWO)))
    );
    let none = lay(&plan(&page("")));
    let empty = bytes(&page(""));
    assert_eq!(
        read_indexed_call(&empty, &[0], &[empty.len()], 300, 13_000, 257),
        Ok((none.0, none.1, Vec::new()))
    );
}

#[test]
fn reading_with_an_index_is_refused_as_reading_is_and_with_1_for_less_room() {
    let (buffer, starts, lengths) = buffer();
    for (rows, text, pairs) in [
        (255, 12_600, 256),
        (256, 12_599, 256),
        (256, 12_600, 255),
        (256, 12_600, 0),
    ] {
        let read = |starts: &[usize], lengths: &[usize]| {
            triple(read_indexed_call(
                &buffer, starts, lengths, rows, text, pairs,
            ))
        };
        assert_eq!(read(&starts, &lengths), ONE);
        // It comes before the faults of a page.
        assert_eq!(read(&[0], &[0]), ONE);
    }
    let read = |starts: &[usize], lengths: &[usize]| {
        triple(read_indexed_call(
            &buffer, starts, lengths, 256, 12_600, 256,
        ))
    };
    assert_eq!(read(&[0], &[0]), (2, 1, 0));
    assert_eq!(read(&[0, buffer.len()], &[0, 1]), ONE);
    assert_eq!(read(&starts[..1], &lengths[..1]), (11, 1, 0));
}

#[test]
fn an_index_is_built_with_the_plan_that_a_collector_reads() {
    let (buffer, starts, lengths) = buffer();
    let mut collector = Collector::new();
    let read = |collector: &Collector, pairs| collector_indexed_call(collector, 256, 12_600, pairs);
    assert_eq!(triple(read(&collector, 256)), ONE);
    add_call(&mut collector, &buffer, starts[0], lengths[0]);
    assert_eq!(triple(read(&collector, 256)), (11, 1, 0));
    assert_eq!(triple(read(&collector, 255)), ONE);
    add_call(&mut collector, &buffer, starts[1], lengths[1]);
    assert_eq!(triple(read(&collector, 255)), ONE);
    assert_eq!(
        triple(collector_indexed_call(&collector, 255, 12_600, 256)),
        ONE
    );
    assert_eq!(
        triple(collector_indexed_call(&collector, 256, 12_599, 256)),
        ONE
    );
    let at_once = read_indexed_call(&buffer, &starts, &lengths, 256, 12_600, 256);
    assert_eq!(read(&collector, 256), at_once);
    assert_eq!(at_once.map(|(_, _, index)| index), Ok(pairs(&TWO)));
}

#[test]
fn a_number_is_found_in_pages() {
    let pages = two_pages().map(|page| bytes(&page));
    let pages = pages.each_ref().map(Vec::as_slice);
    assert_eq!(find(&pages, 2_394_428), Ok(vec![2, 5]));
    assert_eq!(find(&pages, 17), Ok(vec![4, 7]));
    for number in [0, 16, 18, 412, 2_394_429, u32::MAX] {
        assert_eq!(find(&pages, number), Ok(Vec::new()), "{number}");
    }
    assert_eq!(triple(find(&pages[..1], 17)), (11, 2, 0));
    assert_eq!(triple(find(&[], 17)), ONE);
}

#[test]
fn finding_is_refused_as_reading_is_and_with_1_for_less_room() {
    let (buffer, starts, lengths) = buffer();
    let find =
        |starts: &[usize], lengths: &[usize], room| find_call(&buffer, starts, lengths, 17, room);
    assert_eq!(find(&starts, &lengths, 256), Ok(vec![4, 7]));
    assert_eq!(triple(find(&starts, &lengths, 255)), ONE);
    assert_eq!(triple(find(&[0], &[0], 0)), ONE);
    assert_eq!(triple(find(&[0], &[0], 256)), (2, 1, 0));
    assert_eq!(triple(find(&[0], &[buffer.len() + 1], 256)), ONE);
    assert_eq!(triple(find(&starts[1..], &lengths[1..], 256)), (11, 2, 0));
}
