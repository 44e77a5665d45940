//! Every field on both sides of its rule, every missing field and every excluded pair.

mod sample;
use sample::*;
use second::table::{Field, Rule, ELEMENTS};

/// The free texts with their least and greatest length, as document 01 has them.
const TEXTS: [(&str, &str, usize, usize); 28] = [
    ("P", "g", 1, 45),
    ("P", "f", 1, 45),
    ("P", "t", 1, 20),
    ("P", "v", 1, 20),
    ("P", "z", 1, 20),
    ("A", "n", 1, 50),
    ("A", "s", 1, 30),
    ("A", "c", 1, 20),
    ("A", "p", 1, 20),
    ("A", "e", 1, 40),
    ("O", "ai", 1, 50),
    ("O", "c", 1, 5),
    ("S", "t", 1, 50),
    ("M", "a", 1, 50),
    ("M", "fd", 1, 7),
    ("M", "t", 1, 20),
    ("M", "dud", 2, 20),
    ("M", "i", 1, 80),
    ("M", "r", 1, 50),
    ("M", "x", 1, 200),
    ("W", "w", 1, 80),
    ("W", "s", 1, 15),
    ("R", "t", 1, 200),
    ("R", "x", 1, 200),
    ("X", "t", 1, 200),
    // The weight, the height and the lines are no free text but have a greatest length.
    ("O", "w", 1, 5),
    ("O", "h", 1, 3),
    ("O", "x", 1, 25),
];

/// The fields that allow a line break, and how many.
const BREAKS: [(&str, &str, usize); 7] = [
    ("M", "i", 1),
    ("M", "r", 1),
    ("M", "x", 1),
    ("R", "t", 1),
    ("R", "x", 1),
    ("X", "t", 1),
    ("O", "x", 2),
];

/// The fields that must be present.
const MUST: [(&str, &str); 10] = [
    ("MP", "U"),
    ("P", "g"),
    ("P", "f"),
    ("P", "b"),
    ("A", "n"),
    ("A", "t"),
    ("W", "w"),
    ("R", "t"),
    ("X", "t"),
    ("MP", "v"),
];

/// The pairs that exclude each other, each with a value that would be good.
const PAIRS: [(&str, (&str, &str), (&str, &str)); 10] = [
    ("A", ("lanr", "123456789"), ("idf", "1234567")),
    ("A", ("lanr", "123456789"), ("kik", "123456789")),
    ("A", ("idf", "1234567"), ("kik", "123456789")),
    ("S", ("c", "412"), ("t", "Salben")),
    ("M", ("f", "TAB"), ("fd", "Tabl")),
    ("M", ("m", "1"), ("t", "bei Bedarf")),
    ("M", ("d", "1"), ("t", "bei Bedarf")),
    ("M", ("v", "1"), ("t", "bei Bedarf")),
    ("M", ("h", "1"), ("t", "bei Bedarf")),
    ("M", ("du", "1"), ("dud", "ml")),
];

/// A good value for each field that is no free text.
fn good(element: &str, letter: &str) -> &'static str {
    match (element, letter) {
        ("MP", "v") => "027",
        ("MP", "p") => "7",
        ("MP", "U") => U,
        ("MP", "l") => "de-AT",
        ("MP", "a" | "z") => "1",
        ("P", "b") => "19510704",
        ("P", "s") => "W",
        ("P", "egk") => "P123456789",
        ("A", "lanr" | "kik") => "123456789",
        ("A", "idf") => "1234567",
        ("A", "z") => "01234",
        ("A", "t") => "2023-03-01T09:30:00",
        ("M", "p") => "2394428",
        ("M", "f") => "TAB",
        ("S", "c") => "412",
        _ => "1",
    }
}

/// The fields of the table with the letters of their element.
fn table() -> impl Iterator<Item = (&'static str, &'static Field)> {
    ELEMENTS
        .iter()
        .flat_map(|element| element.fields.iter().map(|field| (element.letters, field)))
}

/// The answer to a page with one field set: 0, or a refusal that must be at the element.
fn answer(element: &str, set: &[(&str, &str)]) -> u8 {
    let page = with(element, set);
    let (number, place) = fault(&page);
    let tag = page
        .match_indices(&format!("<{element}"))
        .find(|(at, tag)| page[at + tag.len()..].starts_with([' ', '>', '/']));
    if number != 0 {
        assert_eq!(place, tag.expect("the page has the element").0, "{page}");
    }
    number
}

#[test]
fn the_table_has_nine_elements_and_52_fields_in_writing_order() {
    let wanted = [
        ("MP", "v p U l a z"),
        ("P", "g f b s egk t v z"),
        ("A", "lanr idf kik n s z c p e t"),
        ("O", "ai w h c p b x"),
        ("S", "c t"),
        ("M", "p a f fd m d v h t du dud i r x"),
        ("W", "w s"),
        ("R", "t x"),
        ("X", "t"),
    ];
    let letters = |fields: &[Field]| {
        fields
            .iter()
            .map(|field| field.letter)
            .collect::<Vec<_>>()
            .join(" ")
    };
    let found = ELEMENTS.map(|element| (element.letters, letters(element.fields)));
    assert_eq!(
        found,
        wanted.map(|(element, fields)| (element, fields.to_string()))
    );
    assert_eq!(table().count(), 52);
}

#[test]
fn the_table_agrees_with_document_01_on_lengths_breaks_and_must() {
    for (element, field) in table() {
        let name = (element, field.letter);
        let text = TEXTS.iter().find(|text| (text.0, text.1) == name);
        assert_eq!(
            text.is_some(),
            field.rule == Rule::Text || element == "O" && "whx".contains(field.letter),
            "{name:?}"
        );
        if let (Some(&(_, _, least, most)), true) = (text, field.rule != Rule::Lines) {
            assert_eq!((field.least, field.most), (least, most), "{name:?}");
        }
        let breaks = BREAKS
            .iter()
            .find(|field| (field.0, field.1) == name)
            .map_or(0, |field| field.2);
        assert_eq!(field.tildes, breaks, "{name:?}");
        assert_eq!(field.must, MUST.contains(&name), "{name:?}");
    }
}

#[test]
fn every_text_is_kept_at_its_longest_and_refused_one_byte_longer() {
    for (element, letter, least, most) in TEXTS {
        for length in [least, most] {
            let value = "7".repeat(length);
            assert_eq!(
                answer(element, &[(letter, &value)]),
                0,
                "{element}.{letter} {length}"
            );
        }
        for length in [least - 1, most + 1]
            .into_iter()
            .filter(|&length| length > 0)
        {
            let value = "7".repeat(length);
            assert_eq!(
                answer(element, &[(letter, &value)]),
                7,
                "{element}.{letter} {length}"
            );
        }
    }
}

#[test]
fn a_length_counts_decoded_bytes_without_trailing_spaces() {
    for (element, letter, _, most) in TEXTS {
        let blanks = format!("{} \r\n&#32;", "7".repeat(most));
        assert_eq!(
            answer(element, &[(letter, &blanks)]),
            0,
            "{element}.{letter}"
        );
        let references = "&#x37;".repeat(most);
        assert_eq!(
            answer(element, &[(letter, &references)]),
            0,
            "{element}.{letter}"
        );
    }
}

#[test]
fn free_text_holds_any_decoded_byte_and_keeps_leading_blanks() {
    for (element, letter, ..) in TEXTS.into_iter().filter(|text| text.0 != "O") {
        for value in [
            "  a",
            "\u{a0}\u{a0}",
            "&quot;&lt;",
            "&#x27;&gt;",
            "\u{e4}\u{ff}",
        ] {
            assert_eq!(
                answer(element, &[(letter, value)]),
                0,
                "{element}.{letter} {value}"
            );
        }
    }
    assert!(lists(
        &with("M", &[("a", " \u{a0}x\u{a0}")]),
        "MP.S.M.a= \u{a0}x\u{a0}"
    ));
}

#[test]
fn every_text_allows_its_line_breaks_and_not_one_more() {
    for (element, field) in table().filter(|(_, f)| matches!(f.rule, Rule::Text | Rule::Lines)) {
        let breaks = BREAKS
            .iter()
            .find(|known| (known.0, known.1) == (element, field.letter));
        let breaks = breaks.map_or(0, |known| known.2);
        for tilde in ["~", "&#126;", "&#x7E;"] {
            let value = format!("ab{}", tilde.repeat(breaks));
            assert_eq!(
                answer(element, &[(field.letter, &value)]),
                0,
                "{element} {value}"
            );
            let value = format!("ab{}", tilde.repeat(breaks + 1));
            assert_eq!(
                answer(element, &[(field.letter, &value)]),
                7,
                "{element} {value}"
            );
        }
    }
}

#[test]
fn the_lines_of_the_parameters_are_up_to_25_each() {
    let line = |length| "x".repeat(length);
    let good = [
        format!("{}~{}~{}", line(25), line(25), line(25)),
        format!("~~{}", line(25)),
        format!("{}~~", line(25)),
        "~~".to_string(),
        "~".to_string(),
        line(25),
    ];
    let bad = [
        format!("{}~{}~{}", line(26), line(25), line(25)),
        format!("{}~{}~{}", line(25), line(26), line(1)),
        format!("~~{}", line(26)),
        format!("{} ~x", line(25)),
        line(26),
        "~~~".to_string(),
    ];
    for value in &good {
        assert_eq!(answer("O", &[("x", value)]), 0, "{value}");
    }
    for value in &bad {
        assert_eq!(answer("O", &[("x", value)]), 7, "{value}");
    }
}

/// An element, a letter, values that are kept and values that are refused with 7.
type Sides = (
    &'static str,
    &'static str,
    &'static [&'static str],
    &'static [&'static str],
);

const SIDES: [Sides; 17] = [
    (
        "MP",
        "p",
        &["0", "00", "7", "07", "99", "10 "],
        &["100", "007", "-1", "a", "1,", " 1"],
    ),
    (
        "MP",
        "U",
        &[
            "0123456789ABCDEF0123456789ABCDEF",
            "00000000000000000000000000000000",
        ],
        &[
            "0123456789ABCDEF0123456789ABCDE",
            "0123456789ABCDEF0123456789ABCDEF0",
            "0123456789ABCDEF0123456789ABCDEf",
            "0123456789ABCDEF0123456789ABCDEG",
            "0123456789ABCDEF-123456789ABCDEF",
        ],
    ),
    (
        "MP",
        "l",
        &["de-DE", "de-AT", "en-GB", "xx-XX", "de-DE "],
        &[
            "de",
            "DE-de",
            "de_DE",
            "de-De",
            "de-D",
            "de-DEE",
            "d\u{e4}-DE",
            "1e-DE",
            " de-DE",
        ],
    ),
    ("P", "s", &["M", "W", "D", "X"], &["m", "F", "MW", "1", "U"]),
    (
        "P",
        "egk",
        &["A123456789", "Z000000000"],
        &[
            "a123456789",
            "A12345678",
            "A1234567890",
            "1123456789",
            "AA23456789",
            "\u{c4}123456789",
        ],
    ),
    (
        "P",
        "b",
        &[
            "18750102",
            "18750131",
            "18751231",
            "19000228",
            "19040229",
            "20000229",
            "20240229",
            "99991231",
            "20230430",
            "20231031",
            "19510704 ",
            // Year and month.
            "18750100",
            "18751200",
            "19000200",
            "19510700",
            "20230100",
            "99991200",
            "195107&#48;0",
            // The year alone.
            "18750000",
            "18760000",
            "19510000",
            "99990000",
            "19510000 ",
        ],
        &[
            "18750101",
            "18741231",
            "00010101",
            "00000101",
            "19000229",
            "20230229",
            "21000229",
            "20230431",
            "20230631",
            "20230931",
            "20231131",
            "20230132",
            "20231232",
            "20231301",
            "19510732",
            "1951070",
            "195107040",
            "1951-7-4",
            "1951070a",
            "0",
            // A year before 1875.
            "18740000",
            "18740100",
            "18741200",
            "00010000",
            "00010100",
            "00000000",
            "00000100",
            // A day without a month.
            "18750001",
            "19510001",
            "19510004",
            "19510031",
            "19510032",
            "20230001",
            // A month above 12.
            "18751300",
            "19511300",
            "19519900",
            "99991300",
            // 00 is written out.
            "1951",
            "195107",
            "1951000",
            "195100000",
            "1951  00",
            "195107  ",
            "1951070O",
            "1951-07-00",
            "00001951",
            "00071951",
        ],
    ),
    (
        "A",
        "lanr",
        &["123456789", "000000000"],
        &["12345678", "1234567890", "12345678a", "0"],
    ),
    (
        "A",
        "idf",
        &["1234567"],
        &["123456", "12345678", "123456a", "0"],
    ),
    (
        "A",
        "kik",
        &["123456789"],
        &["12345678", "1234567890", "12345678A"],
    ),
    (
        "A",
        "z",
        &["01234", "99999"],
        &["1234", "123456", "1234a", "D1234"],
    ),
    (
        "A",
        "t",
        &[
            "2023-03-01T00:00:00",
            "2023-03-01T23:59:59",
            "2024-02-29T12:30:45",
            "0001-01-01T00:00:00",
            "9999-12-31T23:59:59",
            "1800-01-01T00:00:00",
            "2000-02-29T00:00:00",
        ],
        &[
            "2023-03-01T24:00:00",
            "2023-03-01T23:60:00",
            "2023-03-01T23:59:60",
            "2023-02-29T00:00:00",
            "1900-02-29T00:00:00",
            "0000-01-01T00:00:00",
            "2023-00-01T00:00:00",
            "2023-13-01T00:00:00",
            "2023-01-00T00:00:00",
            "2023-00-00T00:00:00",
            "1951-07-00T00:00:00",
            "1951-00-00T00:00:00",
            "9999-12-00T23:59:59",
            "2023-01-32T00:00:00",
            "2023-04-31T00:00:00",
            "2023-03-01t09:30:00",
            "2023-03-01 09:30:00",
            "2023-03-01T09:30",
            "2023-03-01T09:30:00Z",
            "20230301T093000",
            "2023-03-01T9:30:00",
            "2023/03/01T09:30:00",
            "2023-03-00T09:30:00",
        ],
    ),
    (
        "O",
        "w",
        &["1", "85", "102", "12345", "00000"],
        &["85.0", "65,3", "123456", "a", "-1", " 1"],
    ),
    ("O", "h", &["1", "175", "000"], &["1750", "1,7", "a"]),
    ("O", "p", &["1"], &["0", "2", "11", "ja"]),
    ("O", "b", &["1"], &["0", "2", "11", "ja"]),
    (
        "S",
        "c",
        &["412", "000", "999"],
        &["41", "4120", "41a", "0"],
    ),
    (
        "M",
        "f",
        &["TAB", "000", "A1B", "ZZZ"],
        &["Tab", "TA", "TABL", "T-B", "T\u{c4}B", "0"],
    ),
];

#[test]
fn every_pattern_is_kept_on_one_side_and_refused_on_the_other() {
    for (element, letter, good, bad) in SIDES {
        for value in good {
            assert_eq!(
                answer(element, &[(letter, value)]),
                0,
                "{element}.{letter} {value}"
            );
        }
        for value in bad {
            assert_eq!(
                answer(element, &[(letter, value)]),
                7,
                "{element}.{letter} {value}"
            );
        }
    }
}

#[test]
fn the_dose_unit_is_one_letter_or_digit() {
    for value in ["1", "9", "a", "z", "A", "Z", "0", "p "] {
        assert_eq!(answer("M", &[("du", value)]), 0, "{value}");
    }
    for value in ["11", "#", "\u{e4}", ".", "~", " 1"] {
        assert_eq!(answer("M", &[("du", value)]), 7, "{value}");
    }
}

#[test]
fn a_dose_is_digits_a_decimal_or_a_fraction_of_up_to_four_marks() {
    let good = [
        "1", "9999", "00", "0000", "0,5", "1,25", "10,5", "0,0", "0,00", "1/2", "3/4", "11/2",
        "1/10", "0/1", "1/01", "00/1", "10", "1,0",
    ];
    let bad = [
        "10000", ",5", "1,", ",", "/", "1/", "/2", "1/0", "1/00", "00/0", "1.5", "-1", "1,5,",
        "1//2", "1,/2", "1/2,", "1 2", " 1", "a", "\u{bd}", "\u{bc}", "+1", "1-2", "1/,1", "12,34",
        "1~",
    ];
    for letter in ["m", "d", "v", "h"] {
        for value in good {
            let page = with("M", &[(letter, value)]);
            assert!(lists(&page, &format!("MP.S.M.{letter}={value}")), "{value}");
        }
        for value in bad {
            assert_eq!(answer("M", &[(letter, value)]), 7, "{value}");
        }
        for zero in ["0", "0 ", "&#48;", "", " "] {
            assert_eq!(
                plan(&with("M", &[(letter, zero)])),
                plan(&with("M", &[])),
                "{zero}"
            );
        }
    }
}

#[test]
fn a_package_number_has_up_to_eight_digits_and_its_check_digit() {
    let good = [
        "2394428", "02394428", "4213974", "232207", "11084508", "17", "00000017",
    ];
    for value in good {
        let line = format!("MP.S.M.p={}", value.trim_start_matches('0'));
        assert!(lists(&with("M", &[("p", value)]), &line), "{value}");
    }
    let bad = [
        "2394429",
        "2394420",
        "002394428",
        "00000000",
        "0",
        "00",
        "1",
        "9",
        "a",
        "2394428a",
        "-2394428",
        "2394 428",
        "123456789",
        " 2394428",
    ];
    for value in bad {
        assert_eq!(answer("M", &[("p", value)]), 7, "{value}");
    }
}

#[test]
fn a_package_number_with_remainder_ten_is_refused_with_every_eighth_digit() {
    // 1 * 3 + 7 * 1 = 10 for 3000001, and 2 * 5 = 10 for 0500000.
    for first_seven in ["3000001", "0500000"] {
        for eighth in 0..=9 {
            let value = format!("{first_seven}{eighth}");
            assert_eq!(answer("M", &[("p", &value)]), 7, "{value}");
        }
    }
}

#[test]
fn of_all_eighth_digits_exactly_the_remainder_is_kept() {
    let sums = [
        ("0239442", 107),
        ("0000001", 7),
        ("1111111", 28),
        ("9999999", 252),
        ("0000010", 6),
    ];
    for (first_seven, sum) in sums {
        for eighth in 0..=9 {
            let value = format!("{first_seven}{eighth}");
            let wanted = if sum % 11 == eighth { 0 } else { 7 };
            assert_eq!(answer("M", &[("p", &value)]), wanted, "{value}");
        }
    }
}

#[test]
fn page_numbers_are_one_digit_and_a_is_not_above_z() {
    for (a, z) in [("1", "1"), ("1 ", "1"), ("&#49;", "1")] {
        assert_eq!(answer("MP", &[("a", a), ("z", z)]), 0, "{a} {z}");
    }
    for (a, z) in [
        ("0", "1"),
        ("1", "0"),
        ("01", "1"),
        ("1", "10"),
        ("2", "1"),
        ("9", "8"),
        ("a", "1"),
    ] {
        assert_eq!(answer("MP", &[("a", a), ("z", z)]), 7, "{a} {z}");
    }
    for set in [
        [("a", "1"), ("z", "-")],
        [("z", "1"), ("a", "-")],
        [("a", ""), ("z", "1")],
        [("a", "1"), ("z", " ")],
    ] {
        assert_eq!(answer("MP", &set), 8, "{set:?}");
    }
    assert_eq!(answer("MP", &[("a", ""), ("z", "")]), 0);
    assert_eq!(
        triple(read(&[&with("MP", &[("a", "9"), ("z", "9")])])),
        (11, 1, 0)
    );
}

#[test]
fn the_edition_is_027_after_decoding_and_cutting() {
    for v in ["027", "0&#50;7 ", "&#x30;27&#32;"] {
        assert_eq!(answer("MP", &[("v", v)]), 0, "{v}");
    }
    for v in [
        "026",
        "028",
        "27",
        "0270",
        "",
        " ",
        " 027",
        "-",
        "&#0;",
        "027&#9;",
        "027\u{a0}",
    ] {
        assert_eq!(answer("MP", &[("v", v)]), 6, "{v}");
    }
}

#[test]
fn a_number_reference_out_of_range_breaks_every_field() {
    for (element, field) in table() {
        let wanted = if field.letter == "v" && element == "MP" {
            6
        } else {
            7
        };
        for value in [
            "&#31;",
            "&#127;",
            "&#x9f;",
            "&#256;",
            "&#99999999999;",
            "&#10;",
        ] {
            let others: &[(&str, &str)] = match field.letter {
                "a" if element == "MP" => &[("z", "1")],
                "z" if element == "MP" => &[("a", "1")],
                _ => &[],
            };
            let set = [&[(field.letter, value)], others].concat();
            assert_eq!(
                answer(element, &set),
                wanted,
                "{element}.{} {value}",
                field.letter
            );
        }
    }
}

#[test]
fn an_empty_optional_field_reads_as_absent() {
    for (element, field) in table().filter(|(_, field)| !field.must) {
        if element == "MP" && "az".contains(field.letter) || (element, field.letter) == ("M", "p") {
            continue;
        }
        for empty in ["", " ", "&#32;", "\t\r\n"] {
            let page = with(element, &[(field.letter, empty)]);
            assert_eq!(
                plan(&page),
                plan(&with(element, &[])),
                "{element}.{}",
                field.letter
            );
        }
    }
}

#[test]
fn every_missing_field_is_refused_at_its_element() {
    for (element, letter) in MUST {
        let wanted = if letter == "v" { 6 } else { 8 };
        for value in ["-", "", "  ", "&#32;"] {
            assert_eq!(
                answer(element, &[(letter, value)]),
                wanted,
                "{element}.{letter}"
            );
        }
    }
}

#[test]
fn a_medication_needs_a_package_number_a_name_or_a_substance() {
    assert_eq!(answer("M", &[("p", "-")]), 8);
    assert_eq!(answer("M", &[("p", ""), ("a", " ")]), 8);
    assert_eq!(
        answer("M", &[("p", "-"), ("i", "x"), ("m", "1"), ("fd", "y")]),
        8
    );
    assert_eq!(answer("M", &[("p", "-"), ("a", "x")]), 0);
    assert_eq!(fault(&page(r#"<S><M><W w="x"/></M></S>"#)), (0, 0));
    let nameless = page(r#"<S><M><W s="x"/></M></S>"#);
    assert_eq!(fault(&nameless), (8, place_of(&nameless, "<W")));
}

#[test]
fn every_excluded_pair_is_refused_even_with_empty_or_zero_values() {
    for (element, (one, good_one), (other, good_other)) in PAIRS {
        for (first, second) in [
            (good_one, good_other),
            ("", ""),
            (good_one, " "),
            ("", good_other),
        ] {
            let set = [(one, first), (other, second)];
            assert_eq!(answer(element, &set), 8, "{element} {set:?}");
            let turned = [(other, second), (one, first)];
            assert_eq!(answer(element, &turned), 8, "{element} {turned:?}");
        }
    }
    for time in ["m", "d", "v", "h"] {
        assert_eq!(answer("M", &[(time, "0"), ("t", "")]), 8, "{time}");
    }
}

#[test]
fn the_table_excludes_exactly_these_pairs_both_ways() {
    for element in &ELEMENTS {
        for field in element.fields {
            for other in element.fields {
                let listed = PAIRS.iter().any(|(name, (one, _), (two, _))| {
                    let names = (field.letter, other.letter);
                    *name == element.letters && (names == (*one, *two) || names == (*two, *one))
                });
                assert_eq!(
                    field.excludes.contains(&other.letter),
                    listed,
                    "{} {}",
                    field.letter,
                    other.letter
                );
            }
        }
    }
}

#[test]
fn every_other_pair_of_fields_may_stand_together() {
    for element in &ELEMENTS {
        for field in element.fields {
            for other in element
                .fields
                .iter()
                .filter(|other| other.letter != field.letter)
            {
                let excluded = field.excludes.contains(&other.letter);
                let value = |field: &Field| match field.rule {
                    Rule::Text => "ab",
                    _ => good(element.letters, field.letter),
                };
                let mut set = vec![(field.letter, value(field)), (other.letter, value(other))];
                if element.letters == "MP"
                    && "az".contains(field.letter) != "az".contains(other.letter)
                {
                    continue;
                }
                set.dedup();
                let wanted = if excluded { 8 } else { 0 };
                assert_eq!(
                    answer(element.letters, &set),
                    wanted,
                    "{} {set:?}",
                    element.letters
                );
            }
        }
    }
}
