//! The plan: which rows a page gives, and pages joined by their numbers.

mod sample;
use sample::*;
use second::RowKind;

/// The kinds of the rows of a page, and of each its first present value.
fn rows(pages: &[&str]) -> Vec<(RowKind, String)> {
    let plan = read(pages).expect("the pages read");
    let first = |row: &second::Row| {
        let value = row.values.iter().find(|value| !value.is_empty());
        (
            row.kind,
            String::from_utf8_lossy(value.map_or(b"", |value| value)).into_owned(),
        )
    };
    plan.rows.iter().map(first).collect()
}

#[test]
fn a_section_with_a_heading_gives_a_row_and_one_without_gives_none() {
    use RowKind::*;
    let page = page(
        "<S c='412'><X t='1'/><M a='2'/><R t='3'/></S><S><M a='4'/></S><S/><S t=''></S>\
         <S t='Zur Nacht'/><S c=' '><X t='5'/></S>",
    );
    let wanted = [
        (H, "412"),
        (X, "1"),
        (M, "2"),
        (R, "3"),
        (M, "4"),
        (H, "Zur Nacht"),
        (X, "5"),
    ];
    assert_eq!(
        rows(&[&page]),
        wanted.map(|(kind, text)| (kind, text.to_string()))
    );
}

#[test]
fn pages_join_by_their_numbers_in_whatever_order_they_are_handed_in() {
    let sheets = [
        numbered(1, 3, "<S c='412'><X t='1'/></S>"),
        numbered(2, 3, "<S><X t='2'/></S>"),
        numbered(3, 3, "<S c='412'><X t='3'/></S>"),
    ];
    let in_order = rows(&[&sheets[0], &sheets[1], &sheets[2]]);
    let texts: Vec<&str> = in_order.iter().map(|(_, text)| text.as_str()).collect();
    assert_eq!(texts, ["412", "1", "2", "412", "3"]);
    for [a, b, c] in [[0, 2, 1], [1, 0, 2], [1, 2, 0], [2, 0, 1], [2, 1, 0]] {
        assert_eq!(rows(&[&sheets[a], &sheets[b], &sheets[c]]), in_order);
    }
}

#[test]
fn nine_pages_join() {
    let sheets: Vec<String> = (1..=9)
        .map(|a| numbered(a, 9, &format!("<S><X t='{a}'/></S>")))
        .collect();
    let pages: Vec<&str> = sheets.iter().rev().map(|page| page.as_str()).collect();
    let texts: String = rows(&pages).into_iter().map(|(_, text)| text).collect();
    assert_eq!(texts, "123456789");
}

#[test]
fn the_order_and_the_spelling_of_attributes_do_not_count() {
    let one = page(r#"<S c="412"><M p="2394428" a="A&amp;B" m="1" i="x y"/></S>"#);
    let two = page("\n<S\tc = '412' >\r\n<M i='x&#x20;y  ' d='0' m='&#49;' r='' p='02394428' a='A&#38;B'\n></M ></S >");
    assert_eq!(plan(&one), plan(&two));
}

#[test]
fn a_language_that_is_absent_or_empty_is_de_de() {
    let plain = plan(&page(""));
    assert_eq!(plan(&with("MP", &[("l", "de-DE")])), plain);
    assert_eq!(plan(&with("MP", &[("l", " ")])), plain);
    assert_ne!(plan(&with("MP", &[("l", "de-AT")])), plain);
}

#[test]
fn plans_that_differ_in_one_value_are_not_the_same() {
    let base = plan(&page("<S><M a='x' m='1'><W w='y' s='1'/></M></S>"));
    let others = [
        "<S><M a='X' m='1'><W w='y' s='1'/></M></S>",
        "<S><M a='x' d='1'><W w='y' s='1'/></M></S>",
        "<S><M a='x' m='1'><W w='y'/></M></S>",
        "<S><M a='x' m='1'><W w='y' s='1'/><W w='y' s='1'/></M></S>",
        "<S><M a='x' m='1' p='2394428'><W w='y' s='1'/></M></S>",
        "<S c='412'><M a='x' m='1'><W w='y' s='1'/></M></S>",
        "<S><M a='x' m='1'><W w='y' s='1'/></M><X t='z'/></S>",
        "<S><M a='x' m='00'><W w='y' s='1'/></M></S>",
    ];
    for rest in others {
        assert_ne!(plan(&page(rest)), base, "{rest}");
    }
}
