//! How plancell takes what it is asked and its pages, and what it prints.

mod sample;
use sample::*;
use second::cell::*;
use second::{plancell, planlist};

/// A plan whose row 2 is a medication with a text for many cells and whose row 3 is one without; its other rows are no medications.
fn sheet() -> Vec<u8> {
    bytes(&page(
        "<S c='412'><M a='Ramipril' fd='Tabl' m='1' h='1/2'><W w='Ramipril' s='5 mg'/><W w='ä'/></M>\
         <M p='2394428' t='bei Bedarf'/><R t='Salbe'/><X t='Notiz'/></S>",
    ))
}

/// What plancell prints for what is asked, each with a zero byte behind it, and pages.
fn printed(asked: [&[u8]; 4], pages: &[u8]) -> Vec<u8> {
    let [row, field, which, catalogue] = asked;
    plancell(&[row, field, which, catalogue, pages].join(&0))
}

/// What it prints of a row's field, which of three, and a catalogue's text.
fn shown(row: usize, field: usize, which: usize, catalogue: &[u8], pages: &[u8]) -> Vec<u8> {
    let numbers = [row, field, which].map(|number| number.to_string());
    let [row, field, which] = numbers.each_ref().map(String::as_bytes);
    printed([row, field, which, catalogue], pages)
}

/// The lines of a cell.
fn lines(source: u8, cut: u8, left: usize, zero: u8, text: &str) -> Vec<u8> {
    bytes(&format!(
        "source={source}\ncut={cut}\nleft={left}\nzero={zero}\ntext={text}\n"
    ))
}

/// The lines of a refusal.
fn refused(number: u8, page: usize, place: usize) -> Vec<u8> {
    bytes(&format!("refused={number}\npage={page}\nplace={place}\n"))
}

#[test]
fn each_field_has_its_number_and_substance_and_strength_one_for_each_of_three() {
    let cells = [
        (NAME, 1, "Ramipril"),
        (SUBSTANCE, 1, "Ramipril"),
        (SUBSTANCE, 2, "ä"),
        (STRENGTH, 1, "5 mg"),
        (FORM, 1, "Tabl"),
        (MORNING, 1, "1"),
        (NIGHT, 1, "1/2"),
    ];
    for (field, which, text) in cells {
        let shown = shown(2, field, which, b"Katalog", &sheet());
        assert_eq!(shown, lines(1, 0, 0, 0, text), "{field} {which}");
    }
    assert_eq!(
        shown(3, FREE_DOSE, 0, b"Katalog", &sheet()),
        lines(1, 0, 0, 0, "bei Bedarf")
    );
    for (field, which) in [(SUBSTANCE, 3), (STRENGTH, 2), (STRENGTH, 3)] {
        let shown = shown(2, field, which, b"Katalog", &sheet());
        assert_eq!(shown, lines(2, 0, 0, 0, "Katalog"), "{field} {which}");
    }
}

#[test]
fn a_cut_text_of_the_catalogue_is_printed_with_the_bytes_left_out_and_without_points() {
    let words = b"Ramipril 5 mg Filmtabletten N2, 50 St\xFCck von Holm Arzneimittel GmbH, Nordhausen am Harz";
    let cells = [
        (NAME, "Ramipril 5 mg Filmtabletten N2, 50 Stück von", 43),
        (
            SUBSTANCE,
            "Ramipril 5 mg Filmtabletten N2, 50 Stück von Holm Arzneimittel GmbH,",
            19,
        ),
        (STRENGTH, "Ramipril 5", 77),
        (FORM, "Rami", 83),
    ];
    for (field, text, left) in cells {
        let shown = shown(3, field, 1, words, &sheet());
        assert_eq!(shown, lines(2, 1, left, 0, text), "{field}");
    }
}

#[test]
fn an_empty_text_is_nobodys_and_an_absent_time_is_marked_beside_another() {
    for field in [NAME, SUBSTANCE, STRENGTH, FORM] {
        assert_eq!(shown(3, field, 1, b"", &sheet()), lines(0, 0, 0, 0, ""));
    }
    for field in [NOON, EVENING] {
        assert_eq!(shown(2, field, 0, b"x", &sheet()), lines(0, 0, 0, 1, ""));
    }
    for field in [MORNING, NOON, EVENING, NIGHT] {
        assert_eq!(shown(3, field, 0, b"x", &sheet()), lines(0, 0, 0, 0, ""));
    }
    assert_eq!(
        shown(2, FREE_DOSE, 0, b"x", &sheet()),
        lines(0, 0, 0, 0, "")
    );
}

#[test]
fn zeros_may_stand_before_a_number_up_to_eight_digits() {
    for zeros in ["0", "000000", "0000000"].map(str::as_bytes) {
        let [two, one] = [b"2", b"1"].map(|digit| [zeros, digit].concat());
        let asked: [[&[u8]; 4]; 3] = [
            [&two, b"2", b"1", b""],
            [b"2", &two, b"1", b""],
            [b"2", b"2", &one, b""],
        ];
        for asked in asked {
            let printed = printed(asked, &sheet());
            assert_eq!(printed, lines(1, 0, 0, 0, "Ramipril"), "{asked:?}");
        }
    }
}

#[test]
fn what_is_no_number_of_one_to_eight_digits_is_refused_with_1_before_any_page() {
    let numbers: [&[u8]; 11] = [
        b"",
        b"000000001",
        b"123456789",
        b"1 ",
        b" 1",
        b"1\n",
        b"+1",
        b"-1",
        b"1a",
        b"1:",
        b"1/",
    ];
    for number in numbers {
        for place in 0..3 {
            let mut asked: [&[u8]; 4] = [b"2", b"1", b"1", b"Katalog"];
            // The empty page would be refused with 2.
            assert_eq!(printed(asked, b""), refused(2, 1, 0));
            asked[place] = number;
            assert_eq!(printed(asked, b""), refused(1, 0, 0), "{asked:?}");
            assert_eq!(printed(asked, &sheet()), refused(1, 0, 0), "{asked:?}");
        }
    }
}

#[test]
fn without_four_zero_bytes_nothing_is_asked() {
    let input = [&b"2\x001\x001\0Katalog\0"[..], &sheet()].concat();
    assert_eq!(plancell(&input), lines(1, 0, 0, 0, "Ramipril"));
    for end in 0..14 {
        assert_eq!(plancell(&input[..end]), refused(1, 0, 0), "{end}");
    }
    assert_eq!(plancell(&input[..14]), refused(2, 1, 0));
    for input in [&sheet()[..], &input[2..], &input[4..], &[0; 20_000]] {
        assert_eq!(plancell(input), refused(1, 0, 0));
    }
}

#[test]
fn the_catalogues_text_has_at_most_1000_bytes() {
    for length in [0, 1, 7, 999, 1_000, 1_001, 1_002, 20_000] {
        let catalogue = vec![b'k'; length];
        let (asked, before): (_, [&[u8]; 3]) = (length <= 1_000, [b"3", b"4", b"1"]);
        let right = match length {
            _ if !asked => refused(1, 0, 0),
            0 => lines(0, 0, 0, 0, ""),
            1..=7 => lines(2, 0, 0, 0, &"k".repeat(length)),
            _ => lines(2, 1, length - 4, 0, "kkkk"),
        };
        assert_eq!(shown(3, FORM, 1, &catalogue, &sheet()), right, "{length}");
        let (number, page) = if asked { (2, 1) } else { (1, 0) };
        let empty = shown(3, FORM, 1, &catalogue, b"");
        assert_eq!(empty, refused(number, page, 0), "{length}");
        // Without a zero byte behind it there is no catalogue's text.
        let input = [&before[..], &[&catalogue]].concat().join(&0);
        assert_eq!(plancell(&input), refused(1, 0, 0), "{length}");
    }
}

#[test]
fn the_catalogues_text_ends_at_its_first_zero_byte_and_may_hold_any_other() {
    let others: Vec<u8> = (1..=255).collect();
    for text in others.chunks(7) {
        let printed = shown(3, FORM, 1, text, &sheet());
        let head = b"source=2\ncut=0\nleft=0\nzero=0\ntext=";
        assert_eq!(printed, [&head[..], text, b"\n"].concat());
    }
    // What stands behind a zero byte is a page.
    let pages = [b"log\0", &sheet()[..]].concat();
    assert_eq!(shown(3, FORM, 1, b"Kata", &pages), refused(4, 1, 0));
}

#[test]
fn a_cell_that_does_not_exist_is_refused_with_1_behind_the_pages() {
    let cells = [
        (0, NAME, 1),
        (1, NAME, 1),
        (4, NAME, 1),
        (5, NAME, 1),
        (6, NAME, 1),
        (258, NAME, 1),
        (65_538, NAME, 1),
        (99_999_999, NAME, 1),
        (2, 0, 1),
        (2, 10, 1),
        (2, 257, 1),
        (2, 99_999_999, 1),
        (2, SUBSTANCE, 0),
        (2, STRENGTH, 4),
        (2, STRENGTH, 257),
        (2, STRENGTH, 99_999_999),
    ];
    for (row, field, which) in cells {
        let answer = |pages: &[u8]| shown(row, field, which, b"Katalog", pages);
        assert_eq!(answer(&sheet()), refused(1, 0, 0), "{row} {field} {which}");
        assert_eq!(answer(b""), refused(2, 1, 0), "{row} {field} {which}");
    }
    for which in [0, 4, 99_999_999] {
        let name = shown(2, NAME, which, b"", &sheet());
        assert_eq!(name, lines(1, 0, 0, 0, "Ramipril"), "{which}");
    }
}

#[test]
fn pages_are_refused_as_planlist_refuses_them() {
    let page = sheet();
    let cut = &page[..page.len() - 1];
    let pages = [&page[..], b"\0", &page].concat();
    let inputs: [&[u8]; 6] = [b"", b"\0", cut, &pages, &[0; 9], &[0; 8]];
    for input in inputs {
        let listed = planlist(input);
        assert!(listed.starts_with(b"refused="), "{input:?}");
        assert_eq!(shown(2, NAME, 1, b"Katalog", input), listed);
    }
}

#[test]
fn rows_are_counted_over_all_sheets() {
    let pages = [2, 1].map(|a| {
        let rows = format!("<S><M a='erste {a}'/><M a='zweite {a}'/></S>");
        bytes(&numbered(a, 2, &rows))
    });
    let names = ["erste 1", "zweite 1", "erste 2", "zweite 2"];
    for (row, name) in (1..).zip(names) {
        let printed = shown(row, NAME, 0, b"", &pages.join(&0));
        assert_eq!(printed, lines(1, 0, 0, 0, name));
    }
}

#[test]
fn each_of_256_rows_can_be_asked_for() {
    let row = |number: usize| format!("<M a='{number}'/>");
    let rows = |first: usize| (first..first + 64).map(row).collect::<String>();
    let page = |a| bytes(&numbered(a, 4, &format!("<S>{}</S>", rows(64 * a - 63))));
    let pages = [1, 2, 3, 4].map(page).join(&0);
    for row in 1..=256 {
        let name = shown(row, NAME, 0, b"", &pages);
        assert_eq!(name, lines(1, 0, 0, 0, &row.to_string()));
    }
    assert_eq!(shown(257, NAME, 0, b"", &pages), refused(1, 0, 0));
}

#[test]
fn of_the_pages_only_the_first_12609_bytes_are_looked_at() {
    let full = |a| {
        let page = bytes(&numbered(a, 9, &format!("<S><M a='Seite {a}'/></S>")));
        [page.clone(), vec![b' '; 1_400 - page.len()]].concat()
    };
    let input = [1, 2, 3, 4, 5, 6, 7, 8, 9].map(full).join(&0);
    assert_eq!(input.len(), 12_608);
    let asked: [[&[u8]; 4]; 2] = [
        [b"9", b"1", b"0", b""],
        [b"00000009", b"00000001", b"00000001", &[b'k'; 1_000]],
    ];
    for asked in asked {
        assert_eq!(printed(asked, &input), lines(1, 0, 0, 0, "Seite 9"));
        // The last byte looked at makes the ninth page too long, or is the end of it.
        let longer = [&input[..], b" "].concat();
        assert_eq!(printed(asked, &longer), refused(2, 9, 0));
        assert_eq!(
            printed(asked, &[&longer[..], &[0; 50]].concat()),
            refused(2, 9, 0)
        );
        let tenth = [&input[..], b"\0", &input].concat();
        assert_eq!(printed(asked, &tenth), refused(1, 0, 0));
    }
}
