//! Well-formed pages, and the place of refusal 4.

mod sample;
use sample::*;
use second::markup::well_formed;

#[test]
fn these_pages_are_well_formed() {
    let pages = [
        "<a/>",
        "<a></a>",
        " \t\r\n<a/>\n\r\t ",
        "<a />",
        "<a\n/>",
        "<a\n>\t</a\r>",
        "<a1b/>",
        "<a b='1'/>",
        "<a b = \"1\"\tc='2' ></a >",
        "<a b=''/>",
        "<a b='\"' c=\"'\"/>",
        "<a b='>/='/>",
        "<a b='&amp;&lt;&gt;&quot;&apos;'/>",
        "<a b='&#1;&#00065;&#x1;&#xaF;&#99999999999999999999;'/>",
        "<a b='1' b='1'/>",
        "<a><b/><a/><c></c> <d> <e/></d></a>",
        "<aa><a></a></aa>",
        "<a b='\r\n\u{a0}\u{ff}'/>",
    ];
    for page in pages {
        assert_eq!(well_formed(&bytes(page)), Ok(()), "{page:?}");
    }
}

#[test]
fn a_malformed_page_is_refused_behind_its_longest_good_beginning() {
    // A good beginning, and what makes the page malformed right behind it.
    let pages = [
        ("", "x<a/>"),
        ("", "&amp;<a/>"),
        ("", "\u{b}<a/>"),
        (" ", "\u{80}<a/>"),
        ("<", " a/>"),
        ("<", "/a>"),
        ("<", "1/>"),
        ("<", "<a/>"),
        ("<", "!-- --><a/>"),
        ("<", "?xml?><a/>"),
        ("<", "\u{e4}/>"),
        ("<a", ":b/>"),
        ("<a", "=''/>"),
        ("<a/", " >"),
        ("<a/", "/>"),
        ("<a /", "b=''>"),
        ("<a ", "=''/>"),
        ("<a ", "1='1'/>"),
        ("<a b", "/>"),
        ("<a b", ">"),
        ("<a b ", "c='1'/>"),
        ("<a b ", "/>"),
        ("<a b=", ">"),
        ("<a b= ", "1/>"),
        ("<a b=", "=''/>"),
        ("<a b='", "<'/>"),
        ("<a b='1'", "c='2'/>"),
        ("<a b='1'", "'/>"),
        ("<a b='1'", "=/>"),
        ("<a b='&", "'/>"),
        ("<a b='&", " amp;'/>"),
        ("<a b='&", "Amp;'/>"),
        ("<a b='&", ";'/>"),
        ("<a b='&", "nbsp;'/>"),
        ("<a b='&a", "bc;'/>"),
        ("<a b='&am", ";'/>"),
        ("<a b='&amp", "'/>"),
        ("<a b='&ap", "p;'/>"),
        ("<a b='&l", ";'/>"),
        ("<a b='&quo", ";'/>"),
        ("<a b='&gt", "t;'/>"),
        ("<a b='&#", ";'/>"),
        ("<a b='&#", "a;'/>"),
        ("<a b='&#", "X41;'/>"),
        ("<a b='&#", "-1;'/>"),
        ("<a b='&#1", "a;'/>"),
        ("<a b='&#1", "'/>"),
        ("<a b='&#1", " ;'/>"),
        ("<a b='&#x", ";'/>"),
        ("<a b='&#x", "g;'/>"),
        ("<a b='&#x", "x1;'/>"),
        ("<a b='&#xA", "g;'/>"),
        ("<a>", "x</a>"),
        ("<a>", "&amp;</a>"),
        ("<a>", "></a>"),
        ("<a></", " a>"),
        ("<a></", "b>"),
        ("<a></", ">"),
        ("<a></", "A>"),
        ("<ab></a", ">"),
        ("<ab></a", " b>"),
        ("<a></a", "b>"),
        ("<a></a ", "b>"),
        ("<a></a", "/>"),
        ("<a><b></", "a></b>"),
        ("<a><b/></", "b></a>"),
        ("<a/>", "<b/>"),
        ("<a></a> ", "<a></a>"),
        ("<a/> ", "x"),
        ("<a/>", "</a>"),
        ("<a></a>", "</a>"),
    ];
    for (good, bad) in pages {
        let page = format!("{good}{bad}");
        assert_eq!(well_formed(&bytes(&page)), Err(good.len()), "{page:?}");
    }
}

#[test]
fn a_page_that_only_ends_too_early_is_refused_at_its_length() {
    let page = " <MP v = '0&#x32;&quot;' U=\"&#50;\" ><P g=''></P ><A/ ></MP>".replace("/ >", "/>");
    let root_end = page.len();
    for length in 0..root_end {
        assert_eq!(
            well_formed(&page.as_bytes()[..length]),
            Err(length),
            "{length}"
        );
    }
    assert_eq!(well_formed(page.as_bytes()), Ok(()));
}

/// All texts of a small alphabet up to a length.
fn texts(alphabet: &[u8], length: usize) -> Vec<Vec<u8>> {
    let mut all = vec![vec![]];
    let mut last = all.clone();
    for _ in 0..length {
        let longer = |text: &Vec<u8>| {
            let text = text.clone();
            alphabet
                .iter()
                .map(move |&byte| [text.clone(), vec![byte]].concat())
        };
        last = last.iter().flat_map(longer).collect();
        all.extend(last.clone());
    }
    all
}

/// Texts that complete a short beginning: the rest of a reference, of a value, of a tag,
/// and the end tags.
fn tails() -> Vec<Vec<u8>> {
    let stages: [&[&str]; 4] = [
        &["", ";", "1;", "p;", "mp;", "os;", "amp;"],
        &["", "'", "''", "=''"],
        &["", ">", "/>", "a/>", "<a/>"],
        &["", "a>", "/a>", "</a>", "</aa>"],
    ];
    let mut tails = vec![String::new()];
    for stage in stages {
        let longer = |tail: &String| {
            let tail = tail.clone();
            stage.iter().map(move |piece| format!("{tail}{piece}"))
        };
        tails = tails.iter().flat_map(longer).collect();
    }
    tails.into_iter().map(String::into_bytes).collect()
}

#[test]
fn every_beginning_up_to_the_place_can_be_completed() {
    let tails = tails();
    for (start, marks) in [
        ("", "<>/a=' "),
        ("<a a='", "&amo;#x1F"),
        ("<a a='&", "amp;#x1F'"),
    ] {
        for text in texts(marks.as_bytes(), 4) {
            let page = [start.as_bytes(), &text].concat();
            let place = well_formed(&page).err().unwrap_or(page.len());
            let good = |tail: &Vec<u8>| well_formed(&[&page[..place], tail].concat()) == Ok(());
            assert!(
                tails.iter().any(good),
                "{:?}",
                String::from_utf8_lossy(&page)
            );
        }
    }
}

#[test]
fn no_short_well_formed_page_shares_more_than_the_place() {
    let all = texts(b"<>/a='", 7);
    let good = all.iter().filter(|page| well_formed(page) == Ok(()));
    let beginnings: std::collections::HashSet<&[u8]> = good
        .flat_map(|page| (0..=page.len()).map(|length| &page[..length]))
        .collect();
    assert!(beginnings.contains(&b"<a></a>"[..]));
    for page in all.iter().filter(|page| page.len() <= 5) {
        let place = well_formed(page).err().unwrap_or(page.len());
        let shared = (0..=page.len())
            .rev()
            .find(|&length| beginnings.contains(&page[..length]));
        assert!(shared <= Some(place), "{:?}", String::from_utf8_lossy(page));
    }
}

#[test]
fn a_byte_not_allowed_is_refused_with_3_before_anything_else_is_judged() {
    for byte in (0..=8).chain([11, 12]).chain(14..=31).chain(127..=159) {
        let page = page("<S><").into_bytes();
        let broken = [&page[..], &[byte][..], b"<<", &[0]].concat();
        let refusal = second::read(&[&broken]).unwrap_err();
        assert_eq!((refusal.number, refusal.place), (3, page.len()), "{byte}");
    }
}
