//! The worked example of the specification, and the pages of its relative, which are refused.

mod sample;
use sample::{place_of, triple};

const PRINTED: &[u8] = include_bytes!("data/figure3-printed.xml");
const LINE: &[u8] = include_bytes!("data/figure3-line.xml");
const LISTING: &[u8] = include_bytes!("data/figure3-listing.txt");

#[test]
fn figure_3_reads_as_printed_with_its_line_breaks() {
    let plan = second::read(&[PRINTED]).expect("figure 3 reads");
    assert_eq!(plan.rows.len(), 13);
    assert_eq!(second::planlist(PRINTED), LISTING);
}

#[test]
fn figure_3_on_one_line_is_the_same_plan() {
    assert!(!LINE.contains(&10));
    assert_eq!(second::read(&[LINE]), second::read(&[PRINTED]));
}

#[test]
fn figure_3_has_the_nine_package_numbers_of_the_specification() {
    let plan = second::read(&[LINE]).expect("figure 3 reads");
    let packages: Vec<u32> = plan
        .rows
        .iter()
        .map(|row| row.package)
        .filter(|&n| n != 0)
        .collect();
    let wanted = [
        4213974, 6453174, 4129423, 232207, 544786, 11084508, 2083906, 9285530, 7273534,
    ];
    assert_eq!(packages, wanted);
}

#[test]
fn figure_3_with_a_point_in_the_weight_is_refused_at_its_o() {
    for page in [PRINTED, LINE] {
        let text: String = page.iter().map(|&byte| char::from(byte)).collect();
        let pointed = text.replace(r#"w="85""#, r#"w="85.0""#);
        assert_ne!(pointed, text);
        let wanted = (7, 1, place_of(&pointed, "<O"));
        assert_eq!(triple(second::read(&[&sample::bytes(&pointed)])), wanted);
    }
}

#[test]
fn figure_3_written_fresh_is_one_page_of_the_same_plan() {
    let plan = second::read(&[LINE]).expect("figure 3 reads");
    let pages = second::write(&plan).expect("figure 3 can be written");
    assert_eq!(pages.len(), 1);
    assert!(pages[0].starts_with(
        br#"<MP v="027" U="F5FDC0E5E10E44EFBAC1D4A2B540A957" l="de-DE" a="1" z="1"><P g="Michaela""#
    ));
    assert_eq!(second::read(&[&pages[0]]), Ok(plan));
}

#[test]
fn the_pages_of_the_medikationsplan_plus_are_refused() {
    let ivanov: &[u8] = include_bytes!("data/plus-ivanov-line.xml");
    let printed: &[u8] = include_bytes!("data/plus-ivanov-printed.xml");
    let sandfrau: &[u8] = include_bytes!("data/plus-sandfrau-printed.xml");
    let line: &[u8] = include_bytes!("data/plus-sandfrau-line.xml");
    let reference: &[u8] = include_bytes!("data/plus-reference.xml");
    for page in [ivanov, sandfrau, line, reference] {
        assert_eq!(triple(second::read(&[page])), (5, 1, 0));
    }
    // As printed with its line breaks the longer example is above 1,400 bytes.
    assert_eq!(triple(second::read(&[printed])), (2, 1, 0));
}

#[test]
fn a_plus_page_without_its_foreign_parts_is_refused_for_its_edition() {
    let page = r#" <MP v="1" U="56DEC1A02F9340A1BA73704ABEF8B704" l="de-DE"><P g="Sandra" f="Sandfrau" b="1984-10-19"/></MP>"#;
    assert_eq!(triple(second::read(&[page.as_bytes()])), (6, 1, 1));
}
