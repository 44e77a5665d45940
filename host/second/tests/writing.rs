//! Fresh pages, refusals 13 and 14, and the fewest pages.

mod sample;
use sample::*;
use second::table::{Keep, Name, ELEMENTS};
use second::{cut_exists, write, Head, Plan, Row, RowKind};

/// The fresh pages of a page, as text.
fn fresh(page: &str) -> Vec<String> {
    let pages = write(&plan(page)).expect("the plan can be written");
    let text = |page: &Vec<u8>| page.iter().map(|&byte| char::from(byte)).collect();
    pages.iter().map(text).collect()
}

/// A plan with the least head and these rows.
fn plan_of(rows: Vec<Row>) -> Plan {
    Plan {
        rows,
        ..plan(&page(""))
    }
}

/// A row with these fields.
fn row(kind: RowKind, fields: &[(&str, &str)]) -> Row {
    let mut row = Row::empty(kind);
    for (letter, value) in fields {
        let slot = kind.element().slot(letter).expect("the row has this field");
        row.values[slot] = bytes(value);
    }
    row
}

/// A note of so many bytes.
fn note(length: usize) -> Row {
    row(RowKind::X, &[("t", &"x".repeat(length))])
}

#[test]
fn a_fresh_page_has_writing_order_double_quotes_and_no_other_space() {
    let page = " <MP\tz='1' U='00112233445566778899AABBCCDDEEFF' a='1' p='07' v='027' >\n\
        <P b='19510704' f='Kern' g='I&#38;d&lt;a&gt;&quot;&apos; ' z='' egk='A123456789' s='W'/>\
        <A t='2023-03-01T09:30:00' n='Praxis  Holm' kik='123456789'></A><O x='a~b' w='85'></O>\
        <S/><S c='412'/><S t='\u{e4}'><X t='x'></X><R x='1' t='2'/></S>\
        <S><M x='9' i='8' m='0' d='1/2' p='02394428'></M><M a='n'><W s='1' w='2'></W></M></S></MP>";
    let wanted =
        "<MP v=\"027\" p=\"7\" U=\"00112233445566778899AABBCCDDEEFF\" l=\"de-DE\" a=\"1\" z=\"1\">\
        <P g=\"I&amp;d&lt;a>&quot;'\" f=\"Kern\" b=\"19510704\" s=\"W\" egk=\"A123456789\"/>\
        <A kik=\"123456789\" n=\"Praxis  Holm\" t=\"2023-03-01T09:30:00\"/><O w=\"85\" x=\"a~b\"/>\
        <S c=\"412\"></S><S t=\"\u{e4}\"><X t=\"x\"/><R t=\"2\" x=\"1\"/>\
        <M p=\"2394428\" d=\"1/2\" i=\"8\" x=\"9\"/><M a=\"n\"><W w=\"2\" s=\"1\"/></M></S></MP>";
    assert_eq!(fresh(page), [wanted]);
}

#[test]
fn a_plan_without_rows_is_one_page_without_a_section() {
    let wanted = format!("<MP v=\"027\" U=\"{U}\" l=\"de-DE\" a=\"1\" z=\"1\">{P}{A}</MP>");
    assert_eq!(fresh(&page("<O/><S/>")), [wanted]);
}

#[test]
fn a_page_whose_first_row_is_no_heading_opens_a_section_without_one() {
    let page = fresh(&page("<S><X t='1'/></S><S c='412'><X t='2'/></S>"));
    assert!(page[0].ends_with("<S><X t=\"1\"/></S><S c=\"412\"><X t=\"2\"/></S></MP>"));
}

#[test]
fn a_heading_is_not_repeated_on_the_next_page() {
    let mut rows = vec![row(RowKind::H, &[("c", "412")])];
    rows.extend((0..12).map(|_| note(200)));
    let pages = write(&plan_of(rows)).expect("the plan can be written");
    assert!(pages.len() > 1);
    let headings = |page: &Vec<u8>| page.windows(5).filter(|bytes| bytes == b"<S c=").count();
    assert_eq!(pages.iter().map(headings).sum::<usize>(), 1);
    for page in &pages[1..] {
        assert!(page.windows(6).any(|bytes| bytes == b"<S><X "));
    }
}

#[test]
fn every_field_written_fresh_reads_as_the_same_plan() {
    let pages = [
        with("MP", &[("p", "1"), ("l", "en-GB")]),
        with(
            "P",
            &[
                ("g", "a&quot;b&amp;c"),
                ("s", "D"),
                ("egk", "A123456789"),
                ("t", "1"),
                ("v", "2"),
                ("z", "3"),
            ],
        ),
        with(
            "A",
            &[
                ("idf", "1234567"),
                ("s", "1"),
                ("z", "12345"),
                ("c", "2"),
                ("p", "3"),
                ("e", "4"),
            ],
        ),
        with(
            "O",
            &[
                ("ai", "1"),
                ("w", "2"),
                ("h", "3"),
                ("c", "4"),
                ("p", "1"),
                ("b", "1"),
                ("x", "~~7"),
            ],
        ),
        with("S", &[("t", " \u{a0}")]),
        with(
            "M",
            &[
                ("a", "1"),
                ("f", "TAB"),
                ("m", "1"),
                ("d", "0,5"),
                ("v", "1/2"),
                ("h", "00"),
                ("du", "1"),
                ("i", "~"),
                ("r", "~1"),
                ("x", "2~"),
            ],
        ),
        with("M", &[("fd", "1"), ("t", "2"), ("dud", "ml")]),
        with("W", &[("s", "5 mg")]),
        with("R", &[("t", "a~b"), ("x", "c~d")]),
        with("X", &[("t", "\u{ff}~")]),
    ];
    for page in &pages {
        let plan = plan(page);
        let fresh = write(&plan).expect("the plan can be written");
        assert_eq!(second::read(&[&fresh[0]]), Ok(plan.clone()), "{page}");
        // Fresh pages of fresh pages are the same bytes.
        assert_eq!(write(&second::read(&[&fresh[0]]).unwrap()), Ok(fresh));
    }
}

#[test]
fn a_page_takes_as_many_rows_as_fit_into_1400_bytes() {
    let empty = fresh(&page(""))[0].len() + "<S></S>".len();
    let tag = "<X t=\"\"/>".len();
    // Six long notes and a seventh that fills the page to its last byte, or one more.
    let used = empty + 5 * (200 + tag) + tag;
    for (length, pages) in [(1_400 - used, 1), (1_401 - used, 2)] {
        let mut rows: Vec<Row> = (0..5).map(|_| note(200)).collect();
        rows.push(note(length));
        let fresh = write(&plan_of(rows)).expect("the plan can be written");
        assert_eq!(fresh.len(), pages, "{length}");
        if pages == 1 {
            assert_eq!(fresh[0].len(), 1_400);
        }
    }
}

#[test]
fn quotes_and_ampersands_count_as_they_are_spelled() {
    // 180 quotes are 1,080 bytes on the page, so that each such note needs its own.
    let quoted = |_| row(RowKind::X, &[("t", &"\"".repeat(180))]);
    let pages = write(&plan_of((0..3).map(quoted).collect())).expect("the plan can be written");
    assert_eq!(pages.len(), 3);
    assert!(pages.iter().all(|page| page.len() <= 1_400));
}

#[test]
fn more_than_256_rows_are_refused_with_1_before_a_bad_head() {
    let mut plan = plan_of(vec![note(1); 257]);
    assert_eq!(triple(write(&plan)), (1, 0, 0));
    plan.head.patch = 100;
    assert_eq!(triple(write(&plan)), (1, 0, 0));
    plan.rows.pop();
    assert_eq!(triple(write(&plan)), (13, 0, 0));
    plan.head.patch = 99;
    assert_eq!(triple(write(&plan)), (0, 0, 0));
}

/// Changes of a good medication row that make it bad.
fn bad_medications() -> Vec<(&'static str, Row)> {
    let good = || row(RowKind::M, &[("a", "x")]);
    let named = |name: &str, strength: &str| [bytes(name), bytes(strength)];
    let package = |package| Row {
        package,
        ..row(RowKind::M, &[("a", "x")])
    };
    let with = |substances| Row {
        substances,
        ..row(RowKind::M, &[("a", "x")])
    };
    vec![
        ("nothing at all", Row::empty(RowKind::M)),
        ("a dose but no name", row(RowKind::M, &[("m", "1")])),
        ("wrong check digit", package(2_394_429)),
        ("package number of nine digits", package(100_000_000)),
        ("remainder ten", package(30_000_010)),
        ("four substances", with(vec![named("w", ""); 4])),
        ("strength without substance", with(vec![named("", "5 mg")])),
        (
            "a gap in the substances",
            with(vec![named("a", ""), named("", ""), named("b", "")]),
        ),
        ("substance too long", with(vec![named(&"w".repeat(81), "")])),
        ("strength too long", with(vec![named("w", &"s".repeat(16))])),
        (
            "a slot too few",
            Row {
                values: good().values[1..].to_vec(),
                ..good()
            },
        ),
        (
            "a package number as text",
            row(RowKind::M, &[("a", "x"), ("p", "2394428")]),
        ),
        (
            "dose of exactly zero",
            row(RowKind::M, &[("a", "x"), ("m", "0")]),
        ),
        (
            "dose with a trailing blank",
            row(RowKind::M, &[("a", "x"), ("m", "1 ")]),
        ),
        (
            "dose without its leading zero",
            row(RowKind::M, &[("a", "x"), ("h", ",5")]),
        ),
        (
            "denominator zero",
            row(RowKind::M, &[("a", "x"), ("v", "1/0")]),
        ),
        (
            "time and free text",
            row(RowKind::M, &[("a", "x"), ("d", "1"), ("t", "y")]),
        ),
        (
            "form and code",
            row(RowKind::M, &[("a", "x"), ("f", "TAB"), ("fd", "y")]),
        ),
        (
            "unit and code",
            row(RowKind::M, &[("a", "x"), ("du", "1"), ("dud", "ml")]),
        ),
        (
            "unit of one byte",
            row(RowKind::M, &[("a", "x"), ("dud", "g")]),
        ),
        (
            "name with a trailing blank",
            row(RowKind::M, &[("a", "x ")]),
        ),
        ("name of a blank", row(RowKind::M, &[("a", " ")])),
        ("name too long", row(RowKind::M, &[("a", &"x".repeat(51))])),
        ("line break in the name", row(RowKind::M, &[("a", "x~y")])),
        (
            "two line breaks in the hint",
            row(RowKind::M, &[("a", "x"), ("i", "~~")]),
        ),
        ("a line feed", row(RowKind::M, &[("a", "x\ny")])),
        ("byte 9", row(RowKind::M, &[("a", "x\ty")])),
        ("byte 127", row(RowKind::M, &[("a", "x\u{7f}")])),
        ("byte 159", row(RowKind::M, &[("a", "x\u{9f}")])),
        ("byte 0", row(RowKind::M, &[("a", "\u{0}")])),
    ]
}

#[test]
fn a_row_that_reading_never_gives_is_refused_with_13_at_its_number() {
    let pair = [bytes("w"), bytes("")];
    let mut bad = bad_medications();
    bad.extend([
        ("heading without c and t", Row::empty(RowKind::H)),
        (
            "heading with both",
            row(RowKind::H, &[("c", "412"), ("t", "x")]),
        ),
        ("heading of two digits", row(RowKind::H, &[("c", "41")])),
        (
            "heading with package",
            Row {
                package: 2_394_428,
                ..row(RowKind::H, &[("c", "412")])
            },
        ),
        (
            "heading with substance",
            Row {
                substances: vec![pair.clone()],
                ..row(RowKind::H, &[("c", "412")])
            },
        ),
        ("recipe without text", row(RowKind::R, &[("x", "y")])),
        (
            "recipe with package",
            Row {
                package: 2_394_428,
                ..row(RowKind::R, &[("t", "y")])
            },
        ),
        ("note without text", Row::empty(RowKind::X)),
        ("note too long", note(201)),
        (
            "note with substance",
            Row {
                substances: vec![pair],
                ..note(1)
            },
        ),
    ]);
    for (what, row) in bad {
        assert_eq!(
            triple(write(&plan_of(vec![row.clone()]))),
            (13, 0, 1),
            "{what}"
        );
        let third = vec![note(1), note(2), row.clone(), row];
        assert_eq!(triple(write(&plan_of(third))), (13, 0, 3), "{what}");
    }
}

#[test]
fn a_good_row_on_the_edge_of_each_rule_is_written() {
    let substances = vec![[bytes(&"w".repeat(80)), bytes(&"s".repeat(15))]; 3];
    let good = [
        Row {
            substances: substances.clone(),
            ..Row::empty(RowKind::M)
        },
        Row {
            package: 2_394_428,
            ..Row::empty(RowKind::M)
        },
        Row {
            package: 17,
            substances,
            ..row(RowKind::M, &[("h", "00"), ("i", "~")])
        },
        row(
            RowKind::M,
            &[("a", " x\u{a0}"), ("m", "0,0"), ("d", "9999")],
        ),
        row(RowKind::H, &[("t", &"x".repeat(50))]),
        row(RowKind::R, &[("t", "~")]),
        note(200),
    ];
    for row in good {
        assert_eq!(
            triple(write(&plan_of(vec![row.clone()]))),
            (0, 0, 0),
            "{row:?}"
        );
    }
}

#[test]
fn a_head_that_reading_never_gives_is_refused_with_13_at_0() {
    let changes = [
        (Name::MP, "l", ""),
        (Name::MP, "l", "de-de"),
        (Name::MP, "l", "de"),
        (Name::MP, "U", ""),
        (Name::MP, "U", "0123"),
        (Name::MP, "v", "027"),
        (Name::MP, "a", "1"),
        (Name::P, "g", ""),
        (Name::P, "f", "x "),
        (Name::P, "b", "18750101"),
        (Name::P, "b", "18740000"),
        (Name::P, "b", "18741200"),
        (Name::P, "b", "00000000"),
        (Name::P, "b", "19511300"),
        (Name::P, "b", "19510004"),
        (Name::P, "b", "19510732"),
        (Name::P, "b", "19000229"),
        (Name::P, "b", "1951"),
        (Name::P, "b", "19510700 "),
        (Name::P, "s", "F"),
        (Name::P, "t", "a~b"),
        (Name::A, "n", ""),
        (Name::A, "t", "2023-02-29T09:30:00"),
        (Name::A, "t", "2023-03-00T09:30:00"),
        (Name::A, "t", "2023-00-01T09:30:00"),
        (Name::A, "t", "2023-00-00T09:30:00"),
        (Name::A, "lanr", "12345678"),
        (Name::O, "w", "85.0"),
        (Name::O, "w", "123456"),
        (Name::O, "x", "~~~"),
        (Name::O, "ai", " "),
        (Name::O, "p", "0"),
    ];
    for (name, letter, value) in changes {
        let slot = second::table::slot(name, letter);
        let mut plan = plan_of(vec![Row::empty(RowKind::M)]);
        plan.head.part_mut(name).expect("a part of the head")[slot] = bytes(value);
        assert_eq!(
            triple(write(&plan)),
            (13, 0, 0),
            "{name:?}.{letter}={value}"
        );
    }
    let mut two = plan_of(vec![]);
    two.head.a[0] = bytes("123456789");
    assert_eq!(triple(write(&two)), (0, 0, 0));
    two.head.a[1] = bytes("1234567");
    assert_eq!(triple(write(&two)), (13, 0, 0));
    let mut patch = plan_of(vec![]);
    patch.head.patch = 100;
    assert_eq!(triple(write(&patch)), (13, 0, 0));
    let empty = Plan {
        head: Head::empty(),
        rows: vec![],
    };
    assert_eq!(triple(write(&empty)), (13, 0, 0));
}

/// Birth dates that are read: years alone, years with a month, and days.
const BIRTHS: [&str; 13] = [
    "18750000", "18750100", "18750102", "18751200", "19000200", "19510000", "19510100", "19510101",
    "19510700", "19510704", "99990000", "99991200", "99991231",
];

/// A page of a person born then.
fn born(date: &str) -> String {
    with("P", &[("b", date)])
}

#[test]
fn a_birth_date_is_kept_and_written_as_it_stands() {
    for date in BIRTHS {
        let mut by_hand = plan_of(vec![]);
        by_hand.head.p[second::table::slot(Name::P, "b")] = bytes(date);
        assert_eq!(plan(&born(date)), by_hand, "{date}");
        let pages = fresh(&born(date));
        assert!(pages[0].contains(&format!(" b=\"{date}\"/>")), "{date}");
        assert_eq!(plan(&pages[0]), by_hand, "{date}");
        assert!(lists(&pages[0], &format!("MP.P.b={date}")), "{date}");
    }
}

#[test]
fn other_birth_dates_are_other_plans_with_other_fresh_pages() {
    for (one, other) in BIRTHS
        .iter()
        .flat_map(|one| BIRTHS.map(|other| (*one, other)))
    {
        let same = one == other;
        assert_eq!(
            plan(&born(one)) == plan(&born(other)),
            same,
            "{one} {other}"
        );
        assert_eq!(
            fresh(&born(one)) == fresh(&born(other)),
            same,
            "{one} {other}"
        );
    }
}

#[test]
fn each_field_longer_than_it_may_be_is_refused_with_13() {
    for element in ELEMENTS.iter().filter(|element| element.name != Name::W) {
        for (slot, field) in element
            .fields
            .iter()
            .enumerate()
            .filter(|(_, f)| f.keep == Keep::Text)
        {
            let kind = RowKind::ALL
                .into_iter()
                .find(|kind| kind.element().name == element.name);
            let long = vec![b'1'; field.most + 1];
            let mut plan = plan_of(
                kind.map(|kind| {
                    let mut row = Row::empty(kind);
                    row.values[slot] = long.clone();
                    if kind == RowKind::M {
                        row.package = 2_394_428
                    }
                    row
                })
                .into_iter()
                .collect(),
            );
            if let Some(part) = plan.head.part_mut(element.name) {
                part[slot] = long;
            }
            let wanted = (13, 0, plan.rows.len());
            assert_eq!(
                triple(write(&plan)),
                wanted,
                "{}.{}",
                element.letters,
                field.letter
            );
        }
    }
}

/// A head so long that a page with it has just so many bytes left for sections.
fn long_head(left: usize) -> Plan {
    let mut plan = plan_of(vec![]);
    let full = "\"".repeat(45);
    plan.head.p[0] = bytes(&full);
    plan.head.p[1] = bytes(&full);
    plan.head.a[3] = bytes(&"\"".repeat(50));
    let used = || write(&plan).expect("the head fits")[0].len();
    let spare = 1_400 - left - used() - " s=\"\" e=\"\"".len();
    let (sixes, ones) = (spare / 6, spare % 6);
    let quotes = format!("{}{}", "\"".repeat(sixes), "x".repeat(ones));
    plan.head.a[4] = bytes(&quotes[..30.min(quotes.len())]);
    plan.head.a[8] = bytes(&quotes[30.min(quotes.len())..]);
    plan
}

#[test]
fn a_head_too_long_for_a_page_is_refused_with_14_at_0() {
    let mut plan = long_head(0);
    assert_eq!(write(&plan).map(|pages| pages[0].len()), Ok(1_400));
    let last = plan.head.p[0].len() - 1;
    plan.head.patch = 1;
    assert_eq!(triple(write(&plan)), (14, 0, 0));
    plan.rows = vec![note(1)];
    assert_eq!(triple(write(&plan)), (14, 0, 0));
    plan.head.p[0][last] = b' ';
    assert_eq!(triple(write(&plan)), (13, 0, 0));
}

#[test]
fn a_row_too_long_for_a_page_is_refused_with_14_at_its_number() {
    // `<S><X t="xx"/></S>` has 18 bytes.
    let mut plan = long_head(18);
    plan.rows = vec![note(2), note(1), note(2)];
    assert_eq!(write(&plan).map(|pages| pages.len()), Ok(3));
    plan.rows = vec![note(3)];
    assert_eq!(triple(write(&plan)), (14, 0, 1));
    plan.rows = vec![note(1), note(2), note(3), note(4)];
    assert_eq!(triple(write(&plan)), (14, 0, 3));
}

#[test]
fn rows_for_ten_pages_are_refused_with_14_at_the_first_row_of_the_tenth() {
    let mut plan = long_head(18);
    plan.rows = vec![note(2); 9];
    assert_eq!(write(&plan).map(|pages| pages.len()), Ok(9));
    for rows in [10, 11, 30] {
        plan.rows = vec![note(2); rows];
        assert_eq!(triple(write(&plan)), (14, 0, 10), "{rows}");
    }
    plan.rows[3] = note(3);
    assert_eq!(triple(write(&plan)), (14, 0, 4));
}

/// Plans of a few rows whose pages hold one to four of them.
fn small_plans() -> Vec<Plan> {
    let head = long_head(60);
    let kinds = [
        note(1),
        note(20),
        row(RowKind::H, &[("c", "412")]),
        row(RowKind::H, &[("t", "Salben")]),
    ];
    let mut plans = Vec::new();
    for code in 0..4_usize.pow(6) {
        let rows = (0..6)
            .map(|at| kinds[code / 4_usize.pow(at) % 4].clone())
            .collect();
        plans.push(Plan {
            rows,
            ..head.clone()
        });
    }
    plans
}

/// The fewest pages over all 32 divisions of six rows, by trying each of them.
fn fewest(plan: &Plan) -> Option<usize> {
    let rows = plan.rows.len();
    let fits = |from: usize, to: usize| {
        second::writer::fresh_page(&plan.head, &plan.rows[from..to], 1, 1).len() <= 1_400
    };
    let pages_of = |cuts: usize| {
        let mut starts: Vec<usize> = (0..rows)
            .filter(|at| *at == 0 || cuts >> (at - 1) & 1 == 1)
            .collect();
        starts.push(rows);
        starts
            .windows(2)
            .all(|pair| fits(pair[0], pair[1]))
            .then(|| starts.len() - 1)
    };
    (0..1 << (rows - 1)).filter_map(pages_of).min()
}

#[test]
fn fresh_pages_are_the_fewest_of_all_divisions() {
    let mut seen = std::collections::BTreeSet::new();
    for plan in small_plans() {
        let wanted = fewest(&plan).expect("each row fits on a page");
        assert_eq!(write(&plan).map(|pages| pages.len()), Ok(wanted));
        assert!(cut_exists(&plan, 6, wanted) && !cut_exists(&plan, 6, wanted - 1));
        seen.insert(wanted);
    }
    assert!(seen.len() >= 3, "{seen:?}");
}

#[test]
fn cut_exists_answers_for_no_rows_and_for_no_pages() {
    let mut plan = long_head(18);
    assert!(cut_exists(&plan, 0, 1));
    assert!(!cut_exists(&plan, 0, 0));
    plan.rows = vec![note(2), note(2), note(3)];
    assert!(cut_exists(&plan, 2, 2) && !cut_exists(&plan, 2, 1));
    assert!(!cut_exists(&plan, 3, 9));
    plan.head = long_head(0).head;
    plan.head.patch = 1;
    assert!(!cut_exists(&plan, 0, 9));
}
