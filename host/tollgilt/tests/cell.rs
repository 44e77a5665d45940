//! What a Rust program gets from `cell`: the text of a printed cell, the plan's own or the catalogue's, with how much of it was left out, or the refusal.

mod seeds;

use inputs::case;
use inputs::vectors::{self, carried_cells, named_cells};
use seeds::seeds;
use tollgilt::{cell, cell_into, list, Cell, Field, Refusal, Source, CELL_ROOM};

/// The cells that a catalogue can fill, with their limits.
const CUT: [(Field, usize); 8] = [
    (Field::Name, 50),
    (Field::Substance(1), 80),
    (Field::Substance(2), 80),
    (Field::Substance(3), 80),
    (Field::Strength(1), 15),
    (Field::Strength(2), 15),
    (Field::Strength(3), 15),
    (Field::Form, 7),
];

/// The cells of a dose.
const DOSE: [Field; 5] = [
    Field::Morning,
    Field::Midday,
    Field::Evening,
    Field::Night,
    Field::FreeDose,
];

/// Every cell of a medication row.
fn fields() -> impl Iterator<Item = Field> {
    CUT.map(|(field, _)| field).into_iter().chain(DOSE)
}

/// Page `a` of `z` with these rows.
fn page(a: usize, z: usize, rows: &str) -> Vec<u8> {
    format!("<MP v='027' U='00112233445566778899AABBCCDDEEFF' a='{a}' z='{z}'><P g='Ida' f='Kern' b='19510704'/><A n='Praxis Holm' t='2023-03-01T09:30:00'/><S>{rows}</S></MP>")
        .into_bytes()
}

/// The cell of the first row of a page with these rows.
fn first(rows: &str, field: Field, catalogue: &[u8]) -> Cell {
    cell(&[&page(1, 1, rows)], 1, field, catalogue).expect("the row is a medication")
}

/// A cell of this text from this source, of which nothing was left out.
fn whole(text: &[u8], source: Source) -> Cell {
    Cell {
        text: text.to_vec(),
        source,
        dots: false,
        zero: false,
        left_out: 0,
    }
}

/// The cell of a catalogue's text of which so many bytes are shown.
fn shown(catalogue: &[u8], length: usize) -> Cell {
    Cell {
        text: catalogue[..length].to_vec(),
        source: Source::Catalogue,
        dots: true,
        zero: false,
        left_out: catalogue.len() - length,
    }
}

/// So many letters with blanks at these places.
fn letters(length: usize, blanks: &[usize]) -> Vec<u8> {
    let mut text = vec![b'a'; length];
    for &blank in blanks {
        text[blank] = b' ';
    }
    text
}

/// The field of a case that counts fields from 1, as the header does; a field that does not exist is asked for as a fourth substance.
fn field_of(number: usize, which: usize) -> Field {
    match number {
        1 => Field::Name,
        2 => Field::Substance(which),
        3 => Field::Strength(which),
        4 => Field::Form,
        5 => Field::Morning,
        6 => Field::Midday,
        7 => Field::Evening,
        8 => Field::Night,
        9 => Field::FreeDose,
        _ => Field::Substance(4),
    }
}

#[test]
fn every_answered_case_is_shown_as_it_says() {
    for vector in carried_cells().into_iter().chain(named_cells()) {
        let pages: Vec<&[u8]> = vector.pages.iter().map(Vec::as_slice).collect();
        let field = field_of(vector.field, vector.which);
        let given = cell(&pages, vector.row, field, &vector.catalogue);
        let said = vector.shown.map(|shown| Cell {
            text: shown.text,
            source: match shown.source {
                vectors::Source::Plan => Source::Plan,
                vectors::Source::Catalogue => Source::Catalogue,
                vectors::Source::None => Source::Neither,
            },
            dots: shown.cut,
            zero: shown.zero,
            left_out: shown.left_out,
        });
        let given = given.map_err(|refusal| {
            [refusal.number(), refusal.page(), refusal.place()].map(|n| n as usize)
        });
        assert_eq!(given, said, "line {}", vector.line);
    }
}

#[test]
fn a_text_as_long_as_its_limit_is_whole_and_one_byte_more_is_cut() {
    for (field, limit) in CUT {
        for length in [1, limit - 3, limit - 1, limit] {
            for text in [letters(length, &[]), letters(length, &[length / 2])] {
                assert_eq!(
                    first("<M p='2394428'/>", field, &text),
                    whole(&text, Source::Catalogue),
                    "{field:?}, {length} bytes"
                );
            }
        }
        for length in [limit + 1, limit + 9, 1_000, 100_000] {
            let text = letters(length, &[]);
            assert_eq!(
                first("<M p='2394428'/>", field, &text),
                shown(&text, limit - 3),
                "{field:?}, {length} bytes"
            );
        }
    }
}

#[test]
fn a_text_is_cut_before_a_blank_among_the_last_ten_of_its_first_bytes() {
    // limit, places of blanks, bytes shown
    let cases: [(usize, &[usize], usize); 26] = [
        (50, &[36], 47),
        (50, &[37], 37),
        (50, &[46], 46),
        (50, &[47], 47),
        (50, &[48], 47),
        (50, &[37, 41], 41),
        (50, &[41, 47], 41),
        (50, &[40, 41], 41),
        (50, &[5, 36, 49], 47),
        (80, &[66], 77),
        (80, &[67], 67),
        (80, &[76], 76),
        (80, &[77], 77),
        (15, &[0], 12),
        (15, &[1], 12),
        (15, &[2], 2),
        (15, &[11], 11),
        (15, &[12], 12),
        (7, &[0], 4),
        (7, &[1], 1),
        (7, &[0, 1], 1),
        (7, &[2], 2),
        (7, &[3], 3),
        (7, &[4], 4),
        (7, &[0, 4], 4),
        (7, &[0, 1, 2, 3], 3),
    ];
    for (limit, blanks, length) in cases {
        for (field, _) in CUT.into_iter().filter(|&(_, of)| of == limit) {
            for whole in [limit + 1, limit + 20] {
                let text = letters(whole, blanks);
                assert_eq!(
                    first("<M p='2394428'/>", field, &text),
                    shown(&text, length),
                    "{field:?}, {whole} bytes, blanks {blanks:?}"
                );
            }
        }
    }
}

#[test]
fn no_byte_but_32_is_a_blank_and_any_byte_may_stand_in_the_catalogue() {
    for byte in (0..=255).filter(|&byte| byte != b' ') {
        let mut text = letters(60, &[]);
        text[40] = byte;
        assert_eq!(
            first("<M p='2394428'/>", Field::Name, &text),
            shown(&text, 47),
            "byte {byte}"
        );
        assert_eq!(
            first("<M p='2394428'/>", Field::Strength(1), &[byte]),
            whole(&[byte], Source::Catalogue)
        );
    }
}

#[test]
fn the_plans_own_text_stands_before_the_catalogues_and_a_code_is_no_text() {
    let long = "x".repeat(80);
    let row = format!(
        "<M p='2394428' a='{0:.50}' fd='Tropfen'><W w='{0}' s='{0:.15}'/><W w='b'/></M>",
        long
    );
    let own: [(Field, &[u8]); 5] = [
        (Field::Name, &long.as_bytes()[..50]),
        (Field::Form, b"Tropfen"),
        (Field::Substance(1), long.as_bytes()),
        (Field::Strength(1), &long.as_bytes()[..15]),
        (Field::Substance(2), b"b"),
    ];
    for (field, text) in own {
        for catalogue in [&[] as &[u8], b"K", &[b'K'; 200]] {
            assert_eq!(first(&row, field, catalogue), whole(text, Source::Plan));
        }
    }
    for field in [Field::Strength(2), Field::Substance(3), Field::Strength(3)] {
        assert_eq!(first(&row, field, b"K"), whole(b"K", Source::Catalogue));
        assert_eq!(first(&row, field, b""), whole(b"", Source::Neither));
    }
    let coded = "<M a='A' f='TAB'/>";
    assert_eq!(
        first(coded, Field::Form, b"Tabl"),
        whole(b"Tabl", Source::Catalogue)
    );
    assert_eq!(first(coded, Field::Form, b""), whole(b"", Source::Neither));
}

#[test]
fn a_dose_is_never_the_catalogues_and_an_absent_time_is_marked_beside_another() {
    let empty = |zero| Cell {
        zero,
        ..whole(b"", Source::Neither)
    };
    // the dose in a row, and its five cells: a text, or the mark
    let cases: [(&str, [Result<&str, bool>; 5]); 6] = [
        ("", [Err(false); 5]),
        ("m='0' d='0'", [Err(false); 5]),
        (
            "m='1' v='0,5'",
            [Ok("1"), Err(true), Ok("0,5"), Err(true), Err(false)],
        ),
        (
            "h='1/2' m='0'",
            [Err(true), Err(true), Err(true), Ok("1/2"), Err(false)],
        ),
        (
            "m='1' d='2' v='3' h='1000'",
            [Ok("1"), Ok("2"), Ok("3"), Ok("1000"), Err(false)],
        ),
        (
            "t='morgens oder abends1'",
            [
                Err(false),
                Err(false),
                Err(false),
                Err(false),
                Ok("morgens oder abends1"),
            ],
        ),
    ];
    for (dose, cells) in cases {
        for (field, meant) in DOSE.into_iter().zip(cells) {
            for catalogue in [&[] as &[u8], b"2", &[b'2'; 100]] {
                let row = format!("<M p='2394428' {dose}/>");
                let meant = match meant {
                    Ok(text) => whole(text.as_bytes(), Source::Plan),
                    Err(zero) => empty(zero),
                };
                assert_eq!(first(&row, field, catalogue), meant, "{field:?} of {dose}");
            }
        }
    }
}

#[test]
fn a_cell_that_the_plan_has_not_is_refused_with_1() {
    let rows = "<M a='A' m='1'/><R t='r'/><X t='x'/>";
    let pages = [
        page(1, 1, rows),
        page(1, 1, &format!("</S><S c='412'>{rows}")),
    ];
    let none = [
        (&pages[0], [0, 2, 3, 4, 257, usize::MAX]),
        (&pages[1], [0, 1, 3, 4, 5, 6]),
    ];
    for (page, rows) in none {
        for (row, field) in rows
            .into_iter()
            .flat_map(|row| fields().map(move |field| (row, field)))
        {
            let refusal = cell(&[page], row, field, b"K").unwrap_err();
            assert_eq!(refusal, Refusal::NoCell, "row {row}, {field:?}");
        }
    }
    for which in [0, 4, 5, 1 << 32, (1 << 32) + 1, usize::MAX] {
        for field in [Field::Substance(which), Field::Strength(which)] {
            assert_eq!(
                cell(&[&pages[0]], 1, field, b"K"),
                Err(Refusal::NoCell),
                "{field:?}"
            );
        }
    }
    let refusal = Refusal::NoCell;
    assert_eq!(
        (refusal.number(), refusal.page(), refusal.place()),
        (1, 0, 0)
    );
    assert_eq!(
        refusal.to_string(),
        "the plan has no such cell: no row of that number, or a row that is no medication, or none of the three"
    );
}

#[test]
fn pages_that_are_no_plan_are_refused_as_for_a_listing_whatever_the_cell() {
    let two = [page(1, 3, "<M p='2394428'/>"), page(3, 3, "")];
    let views: Vec<&[u8]> = two.iter().map(Vec::as_slice).collect();
    for (row, field) in [
        (1, Field::Name),
        (0, Field::Name),
        (1, Field::Substance(0)),
        (300, Field::Night),
    ] {
        assert_eq!(
            cell(&views, row, field, b"K"),
            Err(Refusal::NumberMissing { number: 2 })
        );
        assert_eq!(cell(&[], row, field, b"K"), Err(Refusal::NoRoom));
        assert_eq!(
            cell(&[b"".as_slice(); 10], row, field, b"K"),
            Err(Refusal::NoRoom)
        );
        assert_eq!(
            cell(&[&[]], row, field, b"K"),
            Err(Refusal::PageSize { page: 1 })
        );
    }
}

#[test]
fn only_the_room_of_the_text_is_touched_and_none_where_the_call_is_refused() {
    let page = page(1, 1, "<M p='2394428' m='1'/><X t='x'/>");
    let (starts, lens) = ([0], [page.len()]);
    let called = |row, field, catalogue: &[u8], out: &mut [u8]| {
        let given = cell_into(&page, &starts, &lens, row, field, catalogue, out);
        given.map(|cell| (cell.text.to_vec(), cell.left_out))
    };
    for poison in [0, 0xA5] {
        for room in [CELL_ROOM, CELL_ROOM + 1, 1_000] {
            for (field, catalogue, length) in [
                (Field::Name, letters(60, &[40]), 40),
                (Field::Substance(3), letters(80, &[]), 80),
                (Field::Substance(3), letters(81, &[]), 77),
                (Field::Morning, letters(81, &[]), 1),
                (Field::Night, letters(81, &[]), 0),
            ] {
                let text = if field == Field::Morning {
                    b"1".to_vec()
                } else {
                    catalogue[..length].to_vec()
                };
                let left = if length > 1 {
                    catalogue.len() - length
                } else {
                    0
                };
                let mut out = vec![poison; room];
                assert_eq!(
                    called(1, field, &catalogue, &mut out),
                    Ok((text.clone(), left))
                );
                assert_eq!(out[..length], text[..], "{field:?}");
                assert!(
                    out[length..].iter().all(|&byte| byte == poison),
                    "{field:?}"
                );
            }
        }
        for (row, field, room, refusal) in [
            (1, Field::Name, CELL_ROOM - 1, Refusal::NoRoom),
            (1, Field::Morning, 0, Refusal::NoRoom),
            (2, Field::Name, CELL_ROOM - 1, Refusal::NoRoom),
            (2, Field::Name, CELL_ROOM, Refusal::NoCell),
            (1, Field::Strength(4), CELL_ROOM, Refusal::NoCell),
        ] {
            let mut out = vec![poison; room];
            assert_eq!(called(row, field, b"K", &mut out), Err(refusal));
            assert!(out.iter().all(|&byte| byte == poison));
        }
    }
}

/// A medication row's own texts, each with its cell.
type Texts = Vec<(Field, Vec<u8>)>;

/// The plan's own texts, row by row, as the listing has them; nothing for a row that is no medication.
fn own_texts(lines: &[u8]) -> Vec<Option<Texts>> {
    let mut rows = Vec::new();
    let mut which = 0;
    for line in lines.split(|&byte| byte == b'\n') {
        let at = line.iter().position(|&byte| byte == b'=').unwrap_or(0);
        let (key, value) = (&line[..at], line[at..].get(1..).unwrap_or(b""));
        which = match key {
            b"row" => 0,
            b"MP.S.M.W.w" => which + 1,
            _ => which,
        };
        let field = match key {
            b"row" => {
                rows.push((value == b"M").then(Vec::new));
                continue;
            }
            b"MP.S.M.a" => Field::Name,
            b"MP.S.M.fd" => Field::Form,
            b"MP.S.M.m" => Field::Morning,
            b"MP.S.M.d" => Field::Midday,
            b"MP.S.M.v" => Field::Evening,
            b"MP.S.M.h" => Field::Night,
            b"MP.S.M.t" => Field::FreeDose,
            b"MP.S.M.W.w" => Field::Substance(which),
            b"MP.S.M.W.s" => Field::Strength(which),
            _ => continue,
        };
        if let Some(Some(own)) = rows.last_mut() {
            own.push((field, value.to_vec()));
        }
    }
    rows
}

#[test]
fn every_cell_of_a_plan_shows_what_its_listing_says_in_any_order_of_the_pages() {
    let (mut own, mut lent) = (0, 0);
    for seed in seeds(200) {
        let case = case(seed);
        let pages: Vec<&[u8]> = case.pages.iter().map(Vec::as_slice).collect();
        let back: Vec<&[u8]> = pages.iter().rev().copied().collect();
        let lines = list(&pages);
        let Ok(lines) = lines else {
            let refusal = cell(&pages, 1, Field::Name, b"K").map_err(|refusal| refusal.number());
            assert_eq!(refusal, Err(lines.unwrap_err().number()), "seed {seed}");
            continue;
        };
        for (at, texts) in own_texts(&lines).iter().enumerate().take(20) {
            for field in fields() {
                let given = cell(&pages, at + 1, field, b"K");
                assert_eq!(
                    cell(&back, at + 1, field, b"K"),
                    given,
                    "seed {seed}, reversed"
                );
                let Some(texts) = texts else {
                    assert_eq!(given, Err(Refusal::NoCell), "seed {seed}, row {}", at + 1);
                    continue;
                };
                let text = texts.iter().find(|(of, _)| *of == field);
                let times = texts.iter().any(|(of, _)| DOSE[..4].contains(of));
                let meant = match text {
                    Some((_, text)) => whole(text, Source::Plan),
                    None if DOSE.contains(&field) => Cell {
                        zero: times && field != Field::FreeDose,
                        ..whole(b"", Source::Neither)
                    },
                    None => whole(b"K", Source::Catalogue),
                };
                own += u32::from(meant.source == Source::Plan);
                lent += u32::from(meant.source == Source::Catalogue);
                assert_eq!(given, Ok(meant), "seed {seed}, row {}, {field:?}", at + 1);
            }
        }
    }
    assert!(
        own > 0 && lent > 0,
        "{own} cells of the plan's own, {lent} of the catalogue's"
    );
}
