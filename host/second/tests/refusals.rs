//! Each refusal number with its page and place, and the order among them.

mod sample;
use sample::*;

/// A page, the refusal number, and the piece of the page whose place is told.
type Refused = (&'static str, u8, &'static str);

/// Inside MP behind P and A: refusals 5, 7 and 8 by structure and order.
const BEHIND_THE_HEAD: [Refused; 34] = [
    ("<Q/>", 5, "<Q"),
    ("<s/>", 5, "<s"),
    ("<MP/>", 5, "<MP/"),
    ("<M p='2394428'/>", 5, "<M "),
    ("<S><S/></S>", 5, "<S/>"),
    ("<S><W w='x'/></S>", 5, "<W"),
    ("<S><M a='x'><M a='y'/></M></S>", 5, "<M a='y'"),
    ("<S><M a='x'><X t='y'/></M></S>", 5, "<X"),
    ("<S><R t='x'><W w='y'/></R></S>", 5, "<W"),
    ("<S><X t='x'><X t='y'/></X></S>", 5, "<X t='y'"),
    ("<S><Q><M a='x' i='~~'/></Q></S>", 5, "<Q"),
    ("<O><P/></O>", 5, "<P/>"),
    ("<O/><O/>", 5, "<O/></"),
    ("<S/><O/>", 5, "<O"),
    ("<S/><P g='x' f='y' b='19510704'/>", 5, "<P g='x'"),
    ("<A n='x' t='2023-03-01T09:30:00'/>", 5, "<A n='x'"),
    ("<P g='x' f='y' b='19510704'/>", 5, "<P g='x'"),
    (
        "<S><M a='x'><W w='1'/><W w='2'/><W w='3'/><W w='4'/></M></S>",
        5,
        "<W w='4'",
    ),
    ("<O q='1'/>", 5, "<O"),
    ("<O w='1' w='1'/>", 5, "<O"),
    ("<O W='1'/>", 5, "<O"),
    ("<S c='412' q=''/>", 5, "<S"),
    ("<S><M a='x' A='y'/></S>", 5, "<M"),
    ("<S><M a='x'><W w='y' t='z'/></M></S>", 5, "<W"),
    ("<S><R t='x' t='x'/></S>", 5, "<R"),
    ("<S><X t='x' x='y'/></S>", 5, "<X"),
    // The lowest number is told first, and of equal numbers the lowest place.
    ("<S><M/><X t='x' x='y'/></S>", 5, "<X"),
    ("<S><M/><M a='x' m='a'/></S>", 7, "<M a"),
    ("<S><M a='1' m='a'/><M a='2' m='a'/></S>", 7, "<M a='1'"),
    ("<O w='a'/><S><M a='2' m='a'/></S>", 7, "<O"),
    ("<S><M/><R/></S>", 8, "<M"),
    ("<S c='' t=''><M/></S>", 8, "<S"),
    ("<S><R x='y'/></S>", 8, "<R"),
    ("<S><X/></S>", 8, "<X"),
];

#[test]
fn structure_is_refused_at_the_element_at_fault() {
    for (rest, number, piece) in BEHIND_THE_HEAD {
        let page = page(rest);
        let from = page.len() - rest.len() - "</MP>".len();
        let place = from + page[from..].find(piece).expect("the page has this piece");
        assert_eq!(triple(read(&[&page])), (number, 1, place), "{rest}");
    }
}

#[test]
fn the_head_is_refused_at_its_element_and_a_missing_one_at_mp() {
    let pages = [
        (mp("", A), 8, "<MP"),
        (mp("", P), 8, "<MP"),
        (mp("", ""), 8, "<MP"),
        (mp("", &format!("{A}{P}")), 5, "<P"),
        (mp("", &format!("{P}<O/>{A}")), 5, "<A"),
        (mp("", &format!("<S/>{P}{A}")), 5, "<P"),
        (mp(" q='1'", ""), 5, "<MP"),
        (mp(" l='x'", ""), 7, "<MP"),
        (mp(" a='1'", &format!("{P}{A}")), 8, "<MP"),
        (mp(" z='1'", &format!("{P}{A}")), 8, "<MP"),
        (mp(" a='2' z='1'", &format!("{P}{A}")), 7, "<MP"),
        (
            mp(" l='x'", &format!("{P}{A}")).replace("027", "026"),
            6,
            "<MP",
        ),
        (mp(" v='027'", ""), 5, "<MP"),
        (mp("", "<P g='' f='x' b='1'/>"), 7, "<P"),
        (format!("  \n{}", page("").replace("027", "26")), 6, "<MP"),
        (format!("\t{}", mp("", A)), 8, "<MP"),
        ("<mp/>".to_string(), 5, "<mp"),
        (" <MPR v='027'/>".to_string(), 5, "<MPR"),
        ("<P g='x' f='y' b='19510704'/>".to_string(), 5, "<P"),
    ];
    for (page, number, piece) in pages {
        assert_eq!(
            triple(read(&[&page])),
            (number, 1, place_of(&page, piece)),
            "{page}"
        );
    }
}

#[test]
fn sizes_bytes_and_markup_are_refused_in_this_order() {
    let page = page("");
    let long = "x".repeat(1_401);
    assert_eq!(fault(""), (2, 0));
    assert_eq!(fault(&long), (2, 0));
    assert_eq!(fault(&format!("{long}\u{0}")), (2, 0));
    assert_eq!(fault("\u{0}"), (3, 0));
    assert_eq!(fault(&format!("x{page}\u{7f}\u{0}")), (3, page.len() + 1));
    assert_eq!(fault(" \n "), (4, 3));
    assert_eq!(fault(&page[..page.len() - 1]), (4, page.len() - 1));
    assert_eq!(fault(&format!("{page}{page}")), (4, page.len()));
    assert_eq!(fault("<Q q='&'/>"), (4, 7));
}

#[test]
fn refusal_1_is_given_for_no_page_and_for_ten() {
    let page = page("");
    assert_eq!(triple(read(&[])), (1, 0, 0));
    assert_eq!(triple(read(&[page.as_str(); 10])), (1, 0, 0));
    assert_eq!(triple(read(&[""; 10])), (1, 0, 0));
    assert_eq!(triple(read(&[page.as_str(); 9])), (10, 2, 0));
}

#[test]
fn pages_are_judged_in_the_order_handed_in_before_they_are_joined() {
    let good = numbered(1, 2, "");
    let late = numbered(2, 2, "<S><M/></S>");
    let early = numbered(2, 2, "<Q/>");
    let other = numbered(2, 3, "");
    assert_eq!(
        triple(read(&[&late, &early])),
        (8, 1, place_of(&late, "<M/"))
    );
    assert_eq!(
        triple(read(&[&good, &late, &early])),
        (8, 2, place_of(&late, "<M/"))
    );
    assert_eq!(
        triple(read(&[&good, &other, &early])),
        (5, 3, place_of(&early, "<Q"))
    );
    assert_eq!(triple(read(&[&good, &good, "", "\u{1}"])), (2, 3, 0));
    assert_eq!(triple(read(&[&good, &good, "\u{1}", ""])), (3, 3, 0));
}

#[test]
fn a_head_or_count_that_differs_is_refused_with_9_at_the_first_such_page() {
    let one = numbered(1, 3, "");
    let two = numbered(2, 3, "");
    let head = two.replace("Kern", "Korn");
    let count = numbered(2, 4, "");
    assert_eq!(triple(read(&[&one, &head])), (9, 2, 0));
    assert_eq!(triple(read(&[&one, &two, &count])), (9, 3, 0));
    assert_eq!(triple(read(&[&one, &count, &head])), (9, 2, 0));
    // 9 comes before 10 and 11, whatever their pages.
    assert_eq!(triple(read(&[&one, &one, &head])), (9, 3, 0));
}

#[test]
fn every_part_of_the_head_is_compared() {
    let one = numbered(1, 2, "");
    let two = numbered(2, 2, "");
    let changes = [
        ("U=\"0", "U=\"1"),
        ("v=\"027\"", "v=\"027\" p=\"1\""),
        ("v=\"027\"", "v=\"027\" l=\"de-AT\""),
        ("Ida", "Ada"),
        ("19510704", "19510705"),
        ("b=\"19510704\"", "b=\"19510704\" z=\"x\""),
        ("Praxis", "Praxen"),
        ("09:30:00", "09:30:01"),
        ("n=\"Praxis", "lanr=\"123456789\" n=\"Praxis"),
        ("</MP>", "<O w=\"85\"/></MP>"),
    ];
    for (from, to) in changes {
        let changed = two.replace(from, to);
        assert_ne!(changed, two);
        assert_eq!(triple(read(&[&one, &changed])), (9, 2, 0), "{to}");
        assert_eq!(triple(read(&[&changed, &one])), (9, 2, 0), "{to}");
    }
    let same = [
        ("v=\"027\"", "p=\"00\" v=\"027\""),
        ("v=\"027\"", "v=\"027\" l=\"de-DE\""),
        ("Ida", "I&#100;a "),
        ("</MP>", "<O/></MP>"),
        ("</MP>", "<O w=\" \" x=\"\"/></MP>"),
    ];
    for (from, to) in same {
        assert_eq!(
            triple(read(&[&one, &two.replace(from, to)])),
            (0, 0, 0),
            "{to}"
        );
    }
}

#[test]
fn pages_with_other_birth_dates_do_not_join_however_little_is_known() {
    let dates = ["19510000", "19510700", "19510704"];
    for (one, other) in dates
        .iter()
        .flat_map(|one| dates.map(|other| (*one, other)))
    {
        let first = numbered(1, 2, "").replace("19510704", one);
        let second = numbered(2, 2, "").replace("19510704", other);
        let wanted = if one == other { (0, 0, 0) } else { (9, 2, 0) };
        assert_eq!(triple(read(&[&first, &second])), wanted, "{one} {other}");
    }
}

#[test]
fn a_number_already_seen_is_refused_with_10_and_a_missing_one_with_11() {
    let n = |a| numbered(a, 3, "");
    assert_eq!(triple(read(&[&n(1), &n(2), &n(1)])), (10, 3, 0));
    assert_eq!(triple(read(&[&n(3), &n(3), &n(1), &n(1)])), (10, 2, 0));
    assert_eq!(triple(read(&[&page(""), &page("")])), (10, 2, 0));
    assert_eq!(triple(read(&[&page(""), &numbered(1, 1, "")])), (10, 2, 0));
    assert_eq!(triple(read(&[&n(3)])), (11, 1, 0));
    assert_eq!(triple(read(&[&n(3), &n(1)])), (11, 2, 0));
    assert_eq!(triple(read(&[&n(2), &n(1)])), (11, 3, 0));
}

#[test]
fn more_than_256_rows_are_refused_with_12_after_11() {
    let many = |a, z, rows| numbered(a, z, &format!("<S>{}</S>", "<X t='k'/>".repeat(rows)));
    let full: Vec<String> = (1..=3).map(|a| many(a, 3, 90)).collect();
    assert_eq!(triple(read(&[&full[0], &full[1], &full[2]])), (12, 0, 0));
    let short: Vec<String> = (1..=3).map(|a| many(a, 4, 90)).collect();
    assert_eq!(triple(read(&[&short[0], &short[1], &short[2]])), (11, 4, 0));
}
