//! How planfind takes its number and its pages, and what it prints.

mod sample;
use sample::*;
use second::{planfind, planlist};

/// A plan whose rows 2 and 4 hold the number 17 and whose row 3 holds 2394428.
fn sheet() -> Vec<u8> {
    bytes(&page(
        "<S c='412'><M p='17'/><M p='2394428'/><M p='00000017'/><X t='17'/></S>",
    ))
}

/// What planfind prints for a number as it stands, a zero byte, and pages.
fn found(number: &[u8], pages: &[u8]) -> String {
    String::from_utf8(planfind(&[number, b"\0", pages].concat())).expect("lines of text")
}

/// The lines of a refusal.
fn refused(number: u8, page: usize, place: usize) -> String {
    format!("refused={number}\npage={page}\nplace={place}\n")
}

#[test]
fn the_count_and_each_row_stand_on_a_line() {
    assert_eq!(found(b"17", &sheet()), "held=2\nrow=2\nrow=4\n");
    assert_eq!(found(b"2394428", &sheet()), "held=1\nrow=3\n");
    for number in ["0", "16", "18", "412", "2394429", "99999999"] {
        assert_eq!(found(number.as_bytes(), &sheet()), "held=0\n", "{number}");
    }
}

#[test]
fn zeros_may_stand_before_a_number_up_to_eight_digits() {
    for number in ["017", "0000017", "00000017"] {
        assert_eq!(
            found(number.as_bytes(), &sheet()),
            "held=2\nrow=2\nrow=4\n",
            "{number}"
        );
    }
    assert_eq!(found(b"00000000", &sheet()), "held=0\n");
}

#[test]
fn what_is_no_number_of_one_to_eight_digits_is_refused_with_1_before_any_page() {
    let numbers: [&[u8]; 11] = [
        b"",
        b"000000017",
        b"123456789",
        b"17 ",
        b" 17",
        b"17\n",
        b"+17",
        b"-17",
        b"1a",
        b"1:",
        b"1/",
    ];
    for number in numbers {
        assert_eq!(found(number, &sheet()), refused(1, 0, 0), "{number:?}");
        assert_eq!(found(number, b""), refused(1, 0, 0), "{number:?}");
    }
    // Without a zero byte there is no number.
    for input in [&b""[..], b"17", b"00000017", &sheet()] {
        assert_eq!(planfind(input), refused(1, 0, 0).into_bytes());
    }
    assert_eq!(planfind(&[0; 20_000]), refused(1, 0, 0).into_bytes());
}

#[test]
fn pages_are_refused_as_planlist_refuses_them() {
    let page = sheet();
    let cut = &page[..page.len() - 1];
    let pages = [&page[..], b"\0", &page].concat();
    let inputs: [&[u8]; 6] = [b"", b"\0", cut, &pages, &[0; 9], &[0; 8]];
    for input in inputs {
        let listed = String::from_utf8(planlist(input)).expect("lines of text");
        assert!(listed.starts_with("refused="), "{listed}");
        assert_eq!(found(b"17", input), listed);
    }
    assert_eq!(found(b"17", b""), refused(2, 1, 0));
}

#[test]
fn rows_are_counted_over_all_sheets() {
    let pages = [2, 1].map(|a| bytes(&numbered(a, 2, "<S><M p='23'/><M p='17'/></S>")));
    assert_eq!(found(b"17", &pages.join(&0)), "held=2\nrow=2\nrow=4\n");
    assert_eq!(found(b"23", &pages.join(&0)), "held=2\nrow=1\nrow=3\n");
}

#[test]
fn of_the_pages_only_the_first_12609_bytes_are_looked_at() {
    let full = |a| {
        let page = bytes(&numbered(a, 9, "<S><M p='17'/></S>"));
        [page.clone(), vec![b' '; 1_400 - page.len()]].concat()
    };
    let input = [1, 2, 3, 4, 5, 6, 7, 8, 9].map(full).join(&0);
    assert_eq!(input.len(), 12_608);
    for number in [&b"17"[..], b"00000017"] {
        assert!(found(number, &input).starts_with("held=9\nrow=1\nrow=2\n"));
        // The last byte looked at makes the ninth page too long, or is the end of it.
        let longer = [&input[..], b" "].concat();
        assert_eq!(found(number, &longer), refused(2, 9, 0));
        assert_eq!(
            found(number, &[&longer[..], &[0; 50]].concat()),
            refused(2, 9, 0)
        );
        let tenth = [&input[..], b"\0", &input].concat();
        assert_eq!(found(number, &tenth), refused(1, 0, 0));
    }
}

#[test]
fn all_256_rows_are_printed() {
    let rows = |count: usize| format!("<S>{}</S>", "<M p='17'/>".repeat(count));
    let pages = [1, 2, 3, 4].map(|a| bytes(&numbered(a, 4, &rows(64))));
    let printed = found(b"17", &pages.join(&0));
    let lines = (1..=256).map(|row| format!("row={row}\n"));
    assert_eq!(printed, format!("held=256\n{}", lines.collect::<String>()));
}
