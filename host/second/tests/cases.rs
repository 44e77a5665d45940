//! The nine numbered cases of document 01, its limits, and its listing example.

mod sample;
use sample::*;

/// The M of the page stands at this place.
fn m(attributes: &str) -> String {
    page(&format!("<S><M {attributes}/></S>"))
}

#[test]
fn the_nine_numbered_cases_answer_as_document_01_says() {
    // Case, attributes of an M, and the line the listing has or the refusal number.
    let cases = [
        (1, r#"p="2394428""#, Ok("MP.S.M.p=2394428")),
        (1, r#"p="02394428""#, Ok("MP.S.M.p=2394428")),
        (2, r#"p="2394429""#, Err(7)),
        (3, r#"a="x" m="0,5""#, Ok("MP.S.M.m=0,5")),
        (3, r#"a="x" m=",5""#, Err(7)),
        (5, r#"a="x" m="0" t="bei Bedarf""#, Err(8)),
        (6, r#"a="x" dud="g""#, Err(7)),
        (6, r#"a="x" dud="ml""#, Ok("MP.S.M.dud=ml")),
        (7, r#"a="A&amp;B""#, Ok("MP.S.M.a=A&B")),
        (7, r#"a="A&#38;B""#, Ok("MP.S.M.a=A&B")),
    ];
    for (case, attributes, answer) in cases {
        let page = m(attributes);
        match answer {
            Ok(line) => assert!(lists(&page, line), "case {case}: {attributes}"),
            Err(number) => {
                assert_eq!(
                    fault(&page),
                    (number, place_of(&page, "<M ")),
                    "case {case}"
                )
            }
        }
    }
}

#[test]
fn case_1_both_spellings_of_a_package_number_are_one_row() {
    assert_eq!(plan(&m(r#"p="2394428""#)), plan(&m(r#"p="02394428""#)));
}

#[test]
fn case_4_a_dose_of_zero_alone_is_as_absent() {
    assert_eq!(plan(&m(r#"a="x" m="0""#)), plan(&m(r#"a="x""#)));
}

#[test]
fn case_7_named_and_numbered_references_are_equal() {
    assert_eq!(plan(&m(r#"a="A&amp;B""#)), plan(&m(r#"a="A&#38;B""#)));
}

#[test]
fn case_8_the_year_1900_has_no_leap_day_and_2000_has_one() {
    let old = with("P", &[("b", "19000229")]);
    assert_eq!(fault(&old), (7, place_of(&old, "<P")));
    assert!(lists(&with("P", &[("b", "20000229")]), "MP.P.b=20000229"));
}

#[test]
fn case_9_a_hint_of_two_blanks_is_absent() {
    assert_eq!(plan(&m(r#"a="x" i="  ""#)), plan(&m(r#"a="x""#)));
}

#[test]
fn a_page_of_1400_bytes_reads_and_one_of_1401_is_refused_with_2() {
    let page = page("");
    let long = |length: usize| format!("{page}{}", " ".repeat(length - page.len()));
    assert_eq!(fault(&long(1_400)), (0, 0));
    assert_eq!(fault(&long(1_401)), (2, 0));
}

#[test]
fn a_plan_of_256_rows_reads_and_one_of_257_is_refused_with_12() {
    let sheets = |rows: usize| -> Vec<String> {
        let on = |a: usize| if a < 3 { 86 } else { rows - 172 };
        let sheet = |a| numbered(a, 3, &format!("<S>{}</S>", r#"<X t="k"/>"#.repeat(on(a))));
        (1..=3).map(sheet).collect()
    };
    let answer = |rows| {
        let sheets = sheets(rows);
        let pages: Vec<&str> = sheets.iter().map(|page| page.as_str()).collect();
        read(&pages)
    };
    assert_eq!(answer(256).map(|plan| plan.rows.len()), Ok(256));
    assert_eq!(triple(answer(257)), (12, 0, 0));
}

#[test]
fn the_listing_example_comes_out_byte_for_byte() {
    let input = r#"<MP v="027" U="00112233445566778899AABBCCDDEEFF"><P g="Ida" f="Kern" b="19510704"/><A n="Praxis Holm" t="2023-03-01T09:30:00"/><S c="412"><M v="0,5" m='1' d="0" p="02394428"/></S></MP>"#;
    let output = "MP.v=027\n\
        MP.U=00112233445566778899AABBCCDDEEFF\n\
        MP.l=de-DE\n\
        MP.P.g=Ida\n\
        MP.P.f=Kern\n\
        MP.P.b=19510704\n\
        MP.A.n=Praxis Holm\n\
        MP.A.t=2023-03-01T09:30:00\n\
        row=H\n\
        MP.S.c=412\n\
        row=M\n\
        MP.S.M.p=2394428\n\
        MP.S.M.m=1\n\
        MP.S.M.v=0,5\n\
        rows=2\n";
    assert_eq!(second::planlist(input.as_bytes()), output.as_bytes());
}

#[test]
fn a_substance_is_listed_behind_its_medication() {
    let page = page(r#"<S><M a="x" i="y"><W w="A" s="1 mg"/><W w="B"/></M><R t="z"/></S>"#);
    let listing = second::listing(&plan(&page));
    let tail = "row=M\nMP.S.M.a=x\nMP.S.M.i=y\nMP.S.M.W.w=A\nMP.S.M.W.s=1 mg\nMP.S.M.W.w=B\n\
        row=R\nMP.S.R.t=z\nrows=2\n";
    assert!(listing.ends_with(tail.as_bytes()));
}

#[test]
fn the_patch_is_listed_as_a_number_unless_it_is_zero() {
    for (patch, line) in [("7", "MP.p=7"), ("07", "MP.p=7"), ("99", "MP.p=99")] {
        assert!(lists(&with("MP", &[("p", patch)]), line), "{patch}");
    }
    for patch in ["0", "00", "", " "] {
        assert_eq!(
            plan(&with("MP", &[("p", patch)])),
            plan(&page("")),
            "{patch}"
        );
    }
    let listing = second::listing(&plan(&numbered(1, 1, "")));
    assert_eq!(listing, second::listing(&plan(&page(""))));
}

#[test]
fn a_refusal_prints_its_three_lines() {
    let malformed = b"<MP>x";
    assert_eq!(second::planlist(malformed), b"refused=4\npage=1\nplace=4\n");
}
