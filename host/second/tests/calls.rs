//! The calls with lent rooms, and refusal 1.

mod sample;
use sample::*;
use second::call::*;
use second::{lay, Answer, Collector, Refusal};

/// Two pages in one buffer, with their starts and lengths.
fn buffer() -> (Vec<u8>, [usize; 2], [usize; 2]) {
    let one = bytes(&numbered(1, 2, "<S c='412'/>"));
    let two = bytes(&numbered(2, 2, "<S><X t='x'/></S>"));
    let starts = [3, 3 + one.len() + 1];
    let lengths = [one.len(), two.len()];
    ([b"???", &one[..], b"?", &two[..]].concat(), starts, lengths)
}

const ONE: (u8, usize, usize) = (1, 0, 0);

#[test]
fn pages_are_ranges_of_one_buffer() {
    let (buffer, starts, lengths) = buffer();
    let plan = second::read(&[&buffer[3..3 + lengths[0]], &buffer[starts[1]..]]).unwrap();
    assert_eq!(
        read_call(&buffer, &starts, &lengths, 256, 12_600),
        Ok(lay(&plan))
    );
    assert_eq!(
        listing_call(&buffer, &starts, &lengths, 25_200),
        Ok(second::listing(&plan))
    );
    let pages = second::write(&plan).unwrap();
    let wanted = (pages.concat(), pages.iter().map(Vec::len).collect());
    assert_eq!(fresh_call(&buffer, &starts, &lengths, 12_600), Ok(wanted));
}

#[test]
fn a_range_outside_the_buffer_is_refused_with_1_before_any_page_is_judged() {
    let (buffer, ..) = buffer();
    let end = buffer.len();
    for (start, length) in [
        (0, end + 1),
        (end, 1),
        (end + 1, 0),
        (usize::MAX, 1),
        (1, usize::MAX),
    ] {
        assert_eq!(
            triple(pages_of(&buffer, &[0, start], &[1, length])),
            ONE,
            "{start} {length}"
        );
        assert_eq!(
            triple(read_call(&buffer, &[0, start], &[1, length], 256, 12_600)),
            ONE
        );
    }
    // An empty page at the very end lies within, and is refused as empty.
    assert_eq!(
        triple(read_call(&buffer, &[end], &[0], 256, 12_600)),
        (2, 1, 0)
    );
    assert_eq!(
        triple(read_call(&buffer, &[0], &[3], 256, 12_600)),
        (4, 1, 0)
    );
}

#[test]
fn a_wrong_count_of_pages_is_refused_with_1() {
    let (buffer, ..) = buffer();
    assert_eq!(triple(read_call(&buffer, &[], &[], 256, 12_600)), ONE);
    assert_eq!(
        triple(read_call(&buffer, &[0; 10], &[0; 10], 256, 12_600)),
        ONE
    );
    assert_eq!(
        triple(read_call(&buffer, &[0; 9], &[0; 9], 256, 12_600)),
        (2, 1, 0)
    );
    assert_eq!(triple(read_call(&buffer, &[0, 0], &[0], 256, 12_600)), ONE);
    assert_eq!(triple(read_call(&buffer, &[0], &[0, 0], 256, 12_600)), ONE);
}

#[test]
fn room_smaller_than_document_01_says_is_refused_with_1_whatever_is_needed() {
    let (buffer, starts, lengths) = buffer();
    assert_eq!(
        triple(read_call(&buffer, &starts, &lengths, 255, 12_600)),
        ONE
    );
    assert_eq!(
        triple(read_call(&buffer, &starts, &lengths, 256, 12_599)),
        ONE
    );
    assert_eq!(
        triple(listing_call(&buffer, &starts, &lengths, 25_199)),
        ONE
    );
    assert_eq!(triple(fresh_call(&buffer, &starts, &lengths, 12_599)), ONE);
    // It comes before the faults of a page.
    assert_eq!(triple(listing_call(&buffer, &[0], &[0], 0)), ONE);
    let (numbers, text) = read_call(&buffer, &starts, &lengths, 300, 20_000).unwrap();
    assert_eq!(
        triple(write_call(&numbers.head, &numbers.rows, 2, &text, 12_599)),
        ONE
    );
}

#[test]
fn a_cell_of_pages_asks_for_room_of_80_bytes_whatever_its_text_needs() {
    let page = bytes(&numbered(1, 1, "<S><M p='2394428' m='1'/></S>"));
    let name = |length, room| {
        let catalogue = b"Haferstroh und Gerste";
        cell_call(&page, &[0], &[length], catalogue, [1, 1, 3], room)
    };
    for room in [80, 81, 1_000] {
        let shown = name(page.len(), room).unwrap();
        assert_eq!(shown.text, b"Haferstroh und Gerste", "{room}");
    }
    for room in [79, 21, 0] {
        assert_eq!(triple(name(page.len(), room)), ONE, "{room}");
    }
    assert_eq!(triple(name(0, 79)), ONE);
    assert_eq!(triple(name(0, 80)), (2, 1, 0));
}

#[test]
fn the_writer_is_refused_with_1_for_more_rows_than_lent_or_than_256() {
    let (buffer, starts, lengths) = buffer();
    let (numbers, text) = read_call(&buffer, &starts, &lengths, 256, 12_600).unwrap();
    let write = |rows: &[_], count| write_call(&numbers.head, rows, count, &text, 12_600);
    assert_eq!(triple(write(&numbers.rows, 3)), ONE);
    let many = vec![numbers.rows[1].clone(); 300];
    assert_eq!(triple(write(&many, 257)), ONE);
    assert_eq!(triple(write(&many, 256)), (0, 0, 0));
    // Rows lent beyond the count do not count.
    let mut rows = numbers.rows.clone();
    rows[1].kind = 0;
    assert_eq!(triple(write(&rows, 1)), (0, 0, 0));
    assert_eq!(triple(write(&rows, 2)), (13, 0, 2));
}

#[test]
fn fresh_pages_lie_one_behind_the_other() {
    let notes = format!("<S>{}</S>", "<X t='k'/>".repeat(90));
    let (one, two) = (
        bytes(&numbered(1, 2, &notes)),
        bytes(&numbered(2, 2, &notes)),
    );
    let both = [&one[..], &two[..]].concat();
    let (starts, sizes) = ([one.len(), 0], [two.len(), one.len()]);
    let (bytes, lengths) = fresh_call(&both, &starts, &sizes, 12_600).unwrap();
    assert_eq!(lengths.len(), 2);
    assert_eq!(lengths.iter().sum::<usize>(), bytes.len());
    assert!(bytes[lengths[0]..].starts_with(b"<MP v=\"027\""));
}

#[test]
fn the_collector_takes_a_range_and_reads_into_the_readers_room() {
    let (buffer, starts, lengths) = buffer();
    let mut collector = Collector::new();
    let refused = Answer::Refused(Refusal::new(1, 0, 0));
    assert_eq!(add_call(&mut collector, &buffer, buffer.len(), 1), refused);
    assert_eq!(add_call(&mut collector, &buffer, usize::MAX, 2), refused);
    assert_eq!(collector, Collector::new());
    assert_eq!(triple(collector_call(&collector, 256, 12_600)), ONE);
    for at in [1, 0] {
        assert_eq!(
            add_call(&mut collector, &buffer, starts[at], lengths[at]),
            Answer::Added
        );
    }
    assert_eq!(triple(collector_call(&collector, 255, 12_600)), ONE);
    assert_eq!(triple(collector_call(&collector, 256, 12_599)), ONE);
    let at_once = read_call(&buffer, &starts, &lengths, 256, 12_600);
    assert_eq!(collector_call(&collector, 256, 12_600), at_once);
}
