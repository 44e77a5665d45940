//! The collector: its answers, what it misses, and its reading.

mod sample;
use sample::*;
use second::{Answer, Collector, Refusal};

/// The answer to a page given as text.
fn add(collector: &mut Collector, page: &str) -> Answer {
    collector.add(&bytes(page))
}

/// The refusal of a page that is called page 1.
fn refused(number: u8, place: usize) -> Answer {
    Answer::Refused(Refusal::new(number, 1, place))
}

#[test]
fn an_empty_collector_misses_nothing_and_is_refused_with_1() {
    let collector = Collector::new();
    assert_eq!((collector.missing(), collector.missing_count()), (0, 0));
    assert_eq!(triple(collector.read()), (1, 0, 0));
}

#[test]
fn the_missing_numbers_stand_in_a_mask_with_bit_n_for_number_n() {
    let mut collector = Collector::new();
    let steps = [
        (3, 0b11_1111_0110_u16),
        (9, 0b01_1111_0110),
        (1, 0b01_1111_0100),
        (2, 0b01_1111_0000),
    ];
    for (a, missing) in steps {
        assert_eq!(add(&mut collector, &numbered(a, 9, "")), Answer::Added);
        assert_eq!(collector.missing(), missing, "{a}");
        assert_eq!(collector.missing_count(), missing.count_ones());
        let lowest = missing.trailing_zeros() as usize;
        assert_eq!(triple(collector.read()), (11, lowest, 0));
    }
}

#[test]
fn complete_it_reads_as_the_same_pages_handed_in_at_once() {
    let sheets: Vec<String> = (1..=3)
        .map(|a| numbered(a, 3, &format!("<S c='41{a}'/>")))
        .collect();
    let mut collector = Collector::new();
    for a in [2, 0, 1] {
        assert_eq!(add(&mut collector, &sheets[a]), Answer::Added);
    }
    assert_eq!((collector.missing(), collector.missing_count()), (0, 0));
    assert_eq!(
        collector.read(),
        read(&[&sheets[0], &sheets[1], &sheets[2]])
    );
    assert_eq!(collector.read().map(|plan| plan.rows.len()), Ok(3));
}

#[test]
fn complete_with_too_many_rows_it_is_refused_with_12() {
    let mut collector = Collector::new();
    for a in 1..=3 {
        let page = numbered(a, 3, &format!("<S>{}</S>", "<X t='k'/>".repeat(90)));
        assert_eq!(add(&mut collector, &page), Answer::Added);
    }
    assert_eq!(triple(collector.read()), (12, 0, 0));
}

#[test]
fn a_number_it_has_is_already_here_with_equal_bytes_and_10_with_others() {
    let mut collector = Collector::new();
    let page = numbered(2, 3, "<S><X t='x'/></S>");
    assert_eq!(add(&mut collector, &page), Answer::Added);
    assert_eq!(add(&mut collector, &page), Answer::AlreadyHere);
    // The same plan in another spelling has other bytes.
    assert_eq!(add(&mut collector, &format!("{page} ")), refused(10, 0));
    assert_eq!(add(&mut collector, &numbered(2, 3, "")), refused(10, 0));
}

#[test]
fn a_page_of_another_head_or_count_is_refused_with_9_before_10() {
    let mut collector = Collector::new();
    assert_eq!(add(&mut collector, &numbered(2, 3, "")), Answer::Added);
    assert_eq!(
        add(&mut collector, &numbered(1, 3, "").replace("Ida", "Ada")),
        refused(9, 0)
    );
    assert_eq!(add(&mut collector, &numbered(1, 4, "")), refused(9, 0));
    assert_eq!(add(&mut collector, &numbered(2, 4, "")), refused(9, 0));
}

#[test]
fn a_bad_page_is_refused_as_page_1_with_2_to_8() {
    let bad = numbered(1, 3, "<S><M/></S>");
    let place = place_of(&bad, "<M/");
    for first in [None, Some(numbered(2, 3, ""))] {
        let mut collector = Collector::new();
        if let Some(first) = &first {
            assert_eq!(add(&mut collector, first), Answer::Added);
        }
        assert_eq!(add(&mut collector, ""), refused(2, 0));
        assert_eq!(add(&mut collector, " \u{7f}"), refused(3, 1));
        assert_eq!(add(&mut collector, "<MP><"), refused(4, 5));
        assert_eq!(add(&mut collector, "<PM/>"), refused(5, 0));
        assert_eq!(add(&mut collector, "<MP v='1'/>"), refused(6, 0));
        assert_eq!(add(&mut collector, "<MP v='027' U='1'/>"), refused(7, 0));
        assert_eq!(add(&mut collector, &bad), refused(8, place));
    }
}

#[test]
fn a_refusal_and_already_here_change_nothing() {
    let mut collector = Collector::new();
    let first = numbered(2, 3, "");
    add(&mut collector, &first);
    let before = collector.clone();
    for page in [
        "",
        "x",
        "\u{0}",
        &numbered(1, 4, ""),
        &format!("{first} "),
        &first,
    ] {
        assert_ne!(add(&mut collector, page), Answer::Added);
        assert_eq!(collector, before, "{page}");
    }
    let mut empty = Collector::new();
    add(&mut empty, "<MP/>");
    assert_eq!(empty, Collector::new());
}

#[test]
fn clearing_makes_it_empty() {
    let mut collector = Collector::new();
    add(&mut collector, &numbered(2, 3, ""));
    collector.clear();
    assert_eq!(collector, Collector::new());
    assert_eq!(
        add(&mut collector, &numbered(1, 1, "").replace("Ida", "Ada")),
        Answer::Added
    );
    assert_eq!(collector.read().map(|plan| plan.rows.len()), Ok(0));
}

#[test]
fn a_page_without_numbers_is_the_only_one() {
    let mut collector = Collector::new();
    assert_eq!(add(&mut collector, &page("")), Answer::Added);
    assert_eq!((collector.missing(), collector.missing_count()), (0, 0));
    assert_eq!(add(&mut collector, &numbered(1, 1, "")), refused(10, 0));
    assert_eq!(collector.read(), read(&[&page("")]));
}
