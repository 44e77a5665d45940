//! The text of a printed cell.

mod sample;
use sample::*;
use second::cell::*;
use second::layout::{RowNumbers, Span, SUBSTANCES};
use second::table::{slot, Name};
use second::{lay, Refusal};

/// The rows of a page and their text.
fn laid(rest: &str) -> (Vec<RowNumbers>, Vec<u8>) {
    let (numbers, text) = lay(&plan(&page(rest)));
    (numbers.rows, text)
}

/// The cell of the first row of a page, nothing of which is left out: its text, and whether 0 is printed.
fn shown(rest: &str, catalogue: &str, field: usize, which: usize) -> (String, bool) {
    let (rows, text) = laid(rest);
    let cell = cell(&rows, &text, catalogue.as_bytes(), 1, field, which).expect("the cell exists");
    assert_eq!((cell.dots, cell.left_out), (false, 0), "{field} {which}");
    (String::from_utf8_lossy(cell.text).into_owned(), cell.zero)
}

/// The cells that are cut, with their limits, and where the record of a medication has their values.
const LIMITED: [(usize, usize, usize, Name, &str); 4] = [
    (NAME, 50, 1, Name::M, "a"),
    (SUBSTANCE, 80, SUBSTANCES, Name::W, "w"),
    (STRENGTH, 15, SUBSTANCES, Name::W, "s"),
    (FORM, 7, 1, Name::M, "fd"),
];

/// How many bytes of a text a cell shows, be it the catalogue's or the plan's own. They are the first of it, and the rest is told as left out.
fn kept(whole: &[u8], field: usize) -> usize {
    let (mut rows, text) = laid("<S><M p='2394428'/></S>");
    let other = cell(&rows, &text, whole, 1, field, 1).expect("the cell exists");
    let kept = other.text.len();
    let right = |source| Cell {
        text: &whole[..kept],
        source,
        dots: kept < whole.len(),
        zero: false,
        left_out: whole.len() - kept,
    };
    let shown = whole.escape_ascii();
    assert_eq!(other, right(Source::Catalogue), "{field}: {shown}");
    let (_, _, part, name, letter) = LIMITED[field - 1];
    rows[0].parts[part][slot(name, letter)] = Span {
        start: 2,
        length: whole.len(),
    };
    let text = [b"--", whole, b" -"].concat();
    let own = cell(&rows, &text, &[b' '; 99], 1, field, 1).expect("the cell exists");
    assert_eq!(own, right(Source::Plan), "{field}: {shown}");
    kept
}

/// A text of so many bytes, letter after letter but for the same other byte at these places.
fn with(byte: u8, places: &[usize], length: usize) -> Vec<u8> {
    let mut text: Vec<u8> = (b'a'..=b'z').cycle().take(length).collect();
    places.iter().for_each(|&place| text[place] = byte);
    text
}

/// A text longer than any limit by far, with blanks at these places.
fn spaced(places: &[usize]) -> Vec<u8> {
    with(b' ', places, 99)
}

/// A medication with every field a cell shows.
const OWN: &str = "<S><M a='name' fd='form' m='1' v='1/2'>\
    <W w='w1' s='s1'/><W w='w2'/><W w='w3' s='s3'/></M></S>";

#[test]
fn a_cell_shows_the_plans_own_text_else_the_catalogues() {
    let own = [
        (NAME, 0, "name"),
        (FORM, 0, "form"),
        (SUBSTANCE, 1, "w1"),
        (SUBSTANCE, 2, "w2"),
        (SUBSTANCE, 3, "w3"),
        (STRENGTH, 1, "s1"),
        (STRENGTH, 2, "Buch"),
        (STRENGTH, 3, "s3"),
    ];
    for (field, which, text) in own {
        assert_eq!(
            shown(OWN, "Buch", field, which),
            (text.to_string(), false),
            "{field} {which}"
        );
    }
    for field in [NAME, FORM, SUBSTANCE, STRENGTH] {
        let bare = "<S><M p='2394428'/></S>";
        assert_eq!(shown(bare, "Buch", field, 2), ("Buch".to_string(), false));
        assert_eq!(shown(bare, "", field, 2), (String::new(), false));
    }
}

#[test]
fn the_code_of_a_form_is_no_text() {
    assert_eq!(
        shown("<S><M a='x' f='TAB'/></S>", "Tabl", FORM, 0).0,
        "Tabl"
    );
    assert_eq!(shown("<S><M a='x' f='TAB'/></S>", "", FORM, 0).0, "");
}

#[test]
fn a_text_longer_than_its_limit_is_cut_three_bytes_before_it() {
    for (field, limit, ..) in LIMITED {
        assert_eq!(kept(&with(b' ', &[], limit), field), limit);
        for longer in [limit + 1, limit + 2, limit + 3, limit + 4, 99, 70_000] {
            assert_eq!(kept(&with(b' ', &[], longer), field), limit - 3);
        }
    }
}

#[test]
fn a_text_as_long_as_its_limit_is_shown_with_all_its_blanks() {
    for (field, limit, ..) in LIMITED {
        for length in [1, 2, limit - 3, limit - 2, limit - 1, limit] {
            let end = with(b' ', &[length - 1], length);
            for text in [end, vec![b' '; length]] {
                assert_eq!(kept(&text, field), length);
            }
        }
        assert_eq!(kept(&with(b' ', &[limit - 4], limit), field), limit);
        assert_eq!(kept(&with(b' ', &[limit - 4], limit + 1), field), limit - 4);
    }
}

#[test]
fn a_blank_among_the_last_ten_of_the_first_bytes_ends_the_cell() {
    // One blank at a place of the range is the cell's end; elsewhere it makes no difference.
    let cells = [
        (NAME, 37..=46, 47),
        (SUBSTANCE, 67..=76, 77),
        (STRENGTH, 2..=11, 12),
        (FORM, 1..=3, 4),
    ];
    for (field, ends, most) in cells {
        for place in 0..=most + 3 {
            let shown = if ends.contains(&place) { place } else { most };
            for length in [most + 4, 99] {
                let text = with(b' ', &[place], length);
                assert_eq!(kept(&text, field), shown, "{field}: {place}");
            }
        }
    }
}

#[test]
fn the_last_of_several_blanks_ends_the_cell_and_those_before_it_stay() {
    let shown: [(usize, &[usize], usize); 15] = [
        // Two in a row, across each edge of the last ten bytes and within them.
        (NAME, &[35, 36], 47),
        (NAME, &[36, 37], 37),
        (NAME, &[37, 38], 38),
        (NAME, &[45, 46], 46),
        (NAME, &[46, 47], 46),
        (NAME, &[47, 48], 47),
        (SUBSTANCE, &[66, 67], 67),
        (STRENGTH, &[0, 1], 12),
        (STRENGTH, &[1, 2], 2),
        (FORM, &[1, 2], 2),
        (FORM, &[3, 4], 3),
        // A blank alone is shown where the next one ends the cell.
        (FORM, &[0, 1], 1),
        // Others before and behind.
        (NAME, &[0, 10, 36, 40, 43, 47, 49, 60], 43),
        (SUBSTANCE, &[0, 66, 77, 78, 79, 80], 77),
        (FORM, &[0, 4, 5, 6], 4),
    ];
    for (field, places, shown) in shown {
        assert_eq!(kept(&spaced(places), field), shown, "{field}: {places:?}");
    }
    for (field, limit, ..) in LIMITED {
        assert_eq!(kept(&[b' '; 99], field), limit - 4);
        assert_eq!(kept(&spaced(&[0]), field), limit - 3);
    }
}

#[test]
fn no_byte_but_32_is_a_blank() {
    for (field, limit, ..) in LIMITED {
        for byte in (0..=255).filter(|&byte| byte != b' ') {
            let text = with(byte, &[limit - 5, limit - 4], 99);
            assert_eq!(kept(&text, field), limit - 3, "{field}: {byte}");
        }
        let mut both = spaced(&[limit - 5]);
        both[limit - 4] = 160;
        assert_eq!(kept(&both, field), limit - 5);
    }
}

#[test]
fn a_time_shows_its_dose_or_zero_and_never_the_catalogue() {
    let times = [
        (MORNING, "1", false),
        (NOON, "", true),
        (EVENING, "1/2", false),
        (NIGHT, "", true),
    ];
    for (field, text, zero) in times {
        assert_eq!(
            shown(OWN, "Buch", field, 0),
            (text.to_string(), zero),
            "{field}"
        );
    }
    for field in [MORNING, NOON, EVENING, NIGHT, FREE_DOSE] {
        // With no time at all nothing is marked.
        assert_eq!(
            shown("<S><M a='x' m='0'/></S>", "Buch", field, 0),
            (String::new(), false)
        );
    }
}

#[test]
fn a_free_dose_is_never_cut_and_leaves_the_times_unmarked() {
    let free = "<S><M a='x' t='1 345678 0 23 5 7890'/></S>";
    assert_eq!(
        shown(free, "Buch", FREE_DOSE, 0),
        ("1 345678 0 23 5 7890".to_string(), false)
    );
    for field in [MORNING, NOON, EVENING, NIGHT] {
        assert_eq!(shown(free, "Buch", field, 0), (String::new(), false));
    }
}

#[test]
fn a_dose_of_any_length_is_shown_whole() {
    let text = spaced(&[1, 3, 11, 43, 73]);
    let fields = [MORNING, NOON, EVENING, NIGHT, FREE_DOSE];
    for (field, letter) in fields.into_iter().zip(["m", "d", "v", "h", "t"]) {
        let mut row = RowNumbers::empty(b'M');
        row.parts[1][slot(Name::M, letter)] = Span {
            start: 0,
            length: text.len(),
        };
        let whole = Cell {
            text: &text[..],
            source: Source::Plan,
            dots: false,
            zero: false,
            left_out: 0,
        };
        assert_eq!(cell(&[row], &text, b"Buch", 1, field, 0), Ok(whole));
    }
}

#[test]
fn a_row_record_with_free_dose_and_times_shows_no_times() {
    let (mut rows, text) = laid(OWN);
    rows[0].parts[1][slot(Name::M, "t")] = Span {
        start: 0,
        length: 4,
    };
    for field in [MORNING, NOON, EVENING, NIGHT] {
        let cell = cell(&rows, &text, b"Buch", 1, field, 0).expect("the cell exists");
        let empty = Cell {
            text: &b""[..],
            source: Source::Neither,
            dots: false,
            zero: false,
            left_out: 0,
        };
        assert_eq!(cell, empty, "{field}");
    }
    let free = cell(&rows, &text, b"Buch", 1, FREE_DOSE, 0).expect("the cell exists");
    assert_eq!(free.text, &text[..4]);
}

#[test]
fn a_row_or_field_that_does_not_exist_is_refused_with_1() {
    let (rows, text) = laid("<S c='412'><M a='x'/><R t='y'/><X t='z'/></S>");
    let answer = |row, field, which| cell(&rows, &text, b"Buch", row, field, which);
    for (row, field, which) in [
        (0, NAME, 1),
        (1, NAME, 1),
        (3, NAME, 1),
        (4, NAME, 1),
        (5, NAME, 1),
        (usize::MAX, NAME, 1),
        (2, 0, 1),
        (2, 10, 1),
        (2, usize::MAX, 1),
        (2, SUBSTANCE, 0),
        (2, SUBSTANCE, 4),
        (2, STRENGTH, 0),
        (2, STRENGTH, 4),
    ] {
        assert_eq!(
            answer(row, field, which),
            Err(Refusal::new(1, 0, 0)),
            "{row} {field} {which}"
        );
    }
    for (field, which) in [
        (NAME, 0),
        (NAME, 9),
        (FORM, 4),
        (MORNING, 0),
        (SUBSTANCE, 3),
        (STRENGTH, 1),
    ] {
        assert!(answer(2, field, which).is_ok(), "{field} {which}");
    }
}

#[test]
fn a_range_outside_its_text_is_refused_with_1_for_the_value_asked_for_alone() {
    let (mut rows, text) = laid(OWN);
    let outside = [
        Span {
            start: text.len(),
            length: 1,
        },
        Span {
            start: usize::MAX,
            length: 2,
        },
    ];
    for span in outside {
        rows[0].parts[1][slot(Name::M, "a")] = span;
        assert_eq!(
            cell(&rows, &text, b"", 1, NAME, 0),
            Err(Refusal::new(1, 0, 0))
        );
        assert!(cell(&rows, &text, b"", 1, FORM, 0).is_ok());
    }
    rows[0].parts[1][slot(Name::M, "a")] = Span {
        start: usize::MAX,
        length: 0,
    };
    assert_eq!(
        cell(&rows, &text, b"Buch", 1, NAME, 0).map(|cell| cell.text),
        Ok(&b"Buch"[..])
    );
}

#[test]
fn the_text_is_a_part_of_the_lent_buffer() {
    let (rows, text) = laid(OWN);
    let catalogue = b"a name from the catalogue".to_vec();
    let within = |part: &[u8], whole: &[u8]| whole.as_ptr_range().contains(&part.as_ptr());
    let own = cell(&rows, &text, &catalogue, 1, NAME, 0).unwrap();
    assert!(within(own.text, &text) && own.source == Source::Plan);
    let other = cell(&rows, &text, &catalogue, 1, STRENGTH, 2).unwrap();
    assert!(within(other.text, &catalogue) && other.source == Source::Catalogue);
    assert!(other.dots);
}

#[test]
fn an_empty_text_is_nobodys() {
    let (rows, text) = laid("<S><M p='2394428' m='1'/></S>");
    for field in [NAME, SUBSTANCE, STRENGTH, FORM] {
        let cell = cell(&rows, &text, b"", 1, field, 1).expect("the cell exists");
        assert_eq!((cell.text, cell.source), (&b""[..], Source::Neither));
    }
    for field in [NOON, EVENING, NIGHT, FREE_DOSE] {
        let cell = cell(&rows, &text, b"Buch", 1, field, 0).expect("the cell exists");
        assert_eq!((cell.text, cell.source), (&b""[..], Source::Neither));
    }
    let morning = cell(&rows, &text, b"Buch", 1, MORNING, 0).expect("the cell exists");
    assert_eq!((morning.text, morning.source), (&b"1"[..], Source::Plan));
}

#[test]
fn a_cell_of_pages_is_that_of_their_plan_or_refused_as_they_are() {
    let pages = [2, 1].map(|a| {
        let rows = format!("<S><M a='name {a}'/><X t='x'/></S>");
        bytes(&numbered(a, 2, &rows))
    });
    let both = [&pages[0][..], &pages[1]];
    let answer = |row, field| cell_of(&both, b"Filmtabletten", row, field, 1);
    for (row, name) in [(1, "name 1"), (3, "name 2")] {
        let own = Cell {
            text: bytes(name),
            source: Source::Plan,
            dots: false,
            zero: false,
            left_out: 0,
        };
        assert_eq!(answer(row, NAME), Ok(own));
        let other = Cell {
            text: b"Film".to_vec(),
            source: Source::Catalogue,
            dots: true,
            zero: false,
            left_out: 9,
        };
        assert_eq!(answer(row, FORM), Ok(other));
    }
    for (row, field) in [(0, NAME), (2, NAME), (5, NAME), (1, 0), (1, 10)] {
        assert_eq!(triple(answer(row, field)), (1, 0, 0), "{row} {field}");
    }
    assert_eq!(triple(cell_of(&both[..1], b"", 1, NAME, 1)), (11, 1, 0));
    assert_eq!(triple(cell_of(&[b""], b"", 0, 0, 0)), (2, 1, 0));
}
