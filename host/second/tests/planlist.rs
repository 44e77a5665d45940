//! How planlist and planfresh split their input, and what they print.

mod sample;
use sample::*;
use second::listing::split;
use second::{listing, planfresh, planlist, refusal_lines, Refusal};

/// The lines of a refusal.
fn refused(number: u8, page: usize, place: usize) -> Vec<u8> {
    format!("refused={number}\npage={page}\nplace={place}\n").into_bytes()
}

#[test]
fn pages_are_what_stands_between_zero_bytes() {
    let splits: [(&[u8], &[&[u8]]); 6] = [
        (b"", &[b""]),
        (b"a", &[b"a"]),
        (b"a\0b", &[b"a", b"b"]),
        (b"a\0", &[b"a", b""]),
        (b"\0", &[b"", b""]),
        (b"a\0\0b", &[b"a", b"", b"b"]),
    ];
    for (input, pages) in splits {
        assert_eq!(split(input), pages);
    }
}

#[test]
fn only_the_first_12609_bytes_are_looked_at() {
    let mut input = vec![b' '; 12_609];
    input.push(0);
    assert_eq!(split(&input), [&input[..12_609]]);
    input[12_608] = 0;
    assert_eq!(split(&input), [&input[..12_608], b""]);
}

#[test]
fn no_input_is_one_empty_page() {
    assert_eq!(planlist(b""), refused(2, 1, 0));
    assert_eq!(planlist(b"\0"), refused(2, 1, 0));
}

#[test]
fn a_trailing_zero_byte_is_a_last_empty_page() {
    let one = bytes(&page(""));
    assert_eq!(planlist(&[&one[..], b"\0"].concat()), refused(2, 2, 0));
}

#[test]
fn more_than_nine_pages_are_refused_with_1() {
    assert_eq!(planlist(&[0; 9]), refused(1, 0, 0));
    assert_eq!(planlist(&[0; 8]), refused(2, 1, 0));
    assert_eq!(planlist(&[0; 20_000]), refused(1, 0, 0));
}

#[test]
fn nine_full_pages_are_listed_whatever_follows_them() {
    let full = |a| {
        let page = bytes(&numbered(a, 9, &format!("<S><X t='{a}'/></S>")));
        [page.clone(), vec![b' '; 1_400 - page.len()]].concat()
    };
    let pages: Vec<Vec<u8>> = (1..=9).map(full).collect();
    let input = pages.join(&0);
    assert_eq!(input.len(), 12_608);
    let views: Vec<&[u8]> = pages.iter().map(|page| page.as_slice()).collect();
    let wanted = listing(&second::read(&views).expect("nine full pages read"));
    assert_eq!(planlist(&input), wanted);
    assert!(wanted.ends_with(b"rows=9\n"));
    // One byte more makes the last page too long; it is the last byte looked at.
    let longer = [&input[..], b" "].concat();
    assert_eq!(planlist(&longer), refused(2, 9, 0));
    assert_eq!(
        planlist(&[&longer[..], &[0; 50]].concat()),
        refused(2, 9, 0)
    );
    // A zero byte there is a tenth page.
    assert_eq!(
        planlist(&[&input[..], b"\0", &input].concat()),
        refused(1, 0, 0)
    );
}

#[test]
fn a_refusal_is_three_lines() {
    assert_eq!(
        refusal_lines(&Refusal::new(13, 0, 256)),
        refused(13, 0, 256)
    );
    assert_eq!(
        refusal_lines(&Refusal::new(4, 9, 1_400)),
        b"refused=4\npage=9\nplace=1400\n"
    );
}

#[test]
fn planfresh_prints_fresh_pages_with_one_zero_byte_between_them() {
    let notes = format!("<X t='{}'/>", "a".repeat(200)).repeat(4);
    let pages = [1, 2, 3].map(|a| bytes(&numbered(a, 3, &format!("<S>{notes}</S>"))));
    let views = pages.each_ref().map(Vec::as_slice);
    let fresh = second::write(&second::read(&views).expect("a plan")).expect("fresh pages");
    let printed = planfresh(&pages.join(&0));
    assert_eq!(split(&printed), fresh);
    assert_eq!(planfresh(&printed), printed);
}

#[test]
fn planfresh_refuses_as_planlist_does_and_with_14() {
    assert_eq!(planfresh(b""), refused(2, 1, 0));
    assert_eq!(planfresh(&[0; 20_000]), refused(1, 0, 0));
    let quotes = "\"".repeat(200);
    let long = bytes(&page(&format!("<S><R t='{quotes}' x='{quotes}'/></S>")));
    assert_eq!(planfresh(&long), refused(14, 0, 1));
}
