//! The text that reading lays out, and plans as numbers for the writer.

mod sample;
use sample::*;
use second::layout::{bytes_of, plan_of, Numbers, Span, HEAD_PARTS, ROW_PARTS, SUBSTANCES};
use second::table::{slot, Name};
use second::{lay, write, write_numbers};

/// A page with one row of each kind.
const PAGE: &str = "<MP v='027' p='5' U='00112233445566778899AABBCCDDEEFF' a='1' z='1'>\
    <P f='Kern' g='Ida' b='19510704' z='z'/><A n='Holm' lanr='123456789' t='2023-03-01T09:30:00'/><O w='85'/>\
    <S c='412'><M h='2' m='1' p='02394428' d='0' a='n'><W w='w1' s='s1'/><W w='w2'/></M>\
    <R x='rx' t='rt'/><X t='xt'/></S></MP>";

/// All values of the page in writing order, without MP.v, MP.p, a, z and M.p.
const TEXT: &str = "00112233445566778899AABBCCDDEEFFde-DEIdaKern19510704z\
    123456789Holm2023-03-01T09:30:0085412n12w1s1w2rtrxxt";

/// The part of a row record that holds an element.
fn part(name: Name) -> usize {
    ROW_PARTS
        .iter()
        .position(|&other| other == name)
        .expect("a row has this part")
}

/// The page as numbers over a text.
fn laid() -> (Numbers, Vec<u8>) {
    lay(&plan(PAGE))
}

/// All spans of a plan in writing order.
fn spans(numbers: &Numbers) -> Vec<Span> {
    let rows = numbers
        .rows
        .iter()
        .flat_map(|row| row.parts.iter().flatten());
    numbers
        .head
        .parts
        .iter()
        .flatten()
        .chain(rows)
        .copied()
        .collect()
}

#[test]
fn the_text_holds_the_language_and_every_present_value_without_gaps() {
    let (numbers, text) = laid();
    assert_eq!(text, bytes(TEXT));
    let mut end = 0;
    for span in spans(&numbers) {
        match span.length {
            0 => assert_eq!(span.start, 0),
            _ => assert_eq!(span.start, end),
        }
        end = end.max(span.start + span.length);
    }
    assert_eq!(end, text.len());
}

#[test]
fn numbers_are_kept_as_numbers_and_absent_values_as_zero() {
    let (numbers, text) = laid();
    assert_eq!(numbers.head.patch, 5);
    let kinds: Vec<(u8, u32)> = numbers
        .rows
        .iter()
        .map(|row| (row.kind, row.package))
        .collect();
    assert_eq!(kinds, [(b'H', 0), (b'M', 2_394_428), (b'R', 0), (b'X', 0)]);
    let zero = Span {
        start: 0,
        length: 0,
    };
    for (name, letter) in [
        (Name::MP, "v"),
        (Name::MP, "p"),
        (Name::MP, "a"),
        (Name::MP, "z"),
        (Name::P, "s"),
    ] {
        let part = HEAD_PARTS.iter().position(|&other| other == name).unwrap();
        assert_eq!(
            numbers.head.parts[part][slot(name, letter)],
            zero,
            "{name:?}.{letter}"
        );
    }
    let medication = &numbers.rows[1];
    for letter in ["p", "d", "t"] {
        assert_eq!(medication.parts[part(Name::M)][slot(Name::M, letter)], zero);
    }
    assert!(medication.parts[SUBSTANCES + 2]
        .iter()
        .all(|span| *span == zero));
    let night = medication.parts[part(Name::M)][slot(Name::M, "h")];
    assert_eq!(bytes_of(&text, night), Some(&b"2"[..]));
}

#[test]
fn every_row_record_is_whole_with_zero_where_the_row_has_nothing() {
    let (numbers, _) = laid();
    for (row, filled) in numbers.rows.iter().zip([1, 3, 1, 1]) {
        assert_eq!(row.parts.len(), ROW_PARTS.len());
        let present = |part: &&Vec<Span>| part.iter().any(|span| span.length > 0);
        assert_eq!(row.parts.iter().filter(present).count(), filled);
    }
}

#[test]
fn the_numbers_name_the_plan_they_came_from() {
    let (numbers, text) = laid();
    assert_eq!(plan_of(&text, &numbers), Ok(plan(PAGE)));
    assert_eq!(write_numbers(&text, &numbers), write(&plan(PAGE)));
}

#[test]
fn values_may_lie_anywhere_in_the_text_and_share_bytes() {
    let (mut numbers, text) = laid();
    // The text backwards, value by value, behind other bytes.
    let mut moved = b"\x00other bytes".to_vec();
    let all = |numbers: &mut Numbers, change: &mut dyn FnMut(&mut Span)| {
        let rows = numbers
            .rows
            .iter_mut()
            .flat_map(|row| row.parts.iter_mut().flatten());
        numbers
            .head
            .parts
            .iter_mut()
            .flatten()
            .chain(rows)
            .for_each(change);
    };
    let mut places = Vec::new();
    for span in spans(&numbers).into_iter().rev() {
        places.push(moved.len());
        moved.extend(bytes_of(&text, span).unwrap());
    }
    all(&mut numbers, &mut |span| span.start = places.pop().unwrap());
    assert_eq!(plan_of(&moved, &numbers), Ok(plan(PAGE)));
    // An absent value may have any start.
    all(&mut numbers, &mut |span| {
        if span.length == 0 {
            span.start = usize::MAX;
        }
    });
    assert_eq!(plan_of(&moved, &numbers), Ok(plan(PAGE)));
    // Substance and strength may be the same bytes.
    let first = numbers.rows[1].parts[SUBSTANCES][0];
    numbers.rows[1].parts[SUBSTANCES][1] = first;
    let shared = plan_of(&moved, &numbers).unwrap();
    assert_eq!(shared.rows[1].substances[0], [bytes("w1"), bytes("w1")]);
}

/// A change of the numbers, and the place of the refusal 13 it brings.
type Change = (&'static str, usize, fn(&mut Numbers, usize));

const CHANGES: [Change; 18] = [
    ("head value ends behind the text", 0, |n, end| {
        n.head.parts[1][0] = Span {
            start: end,
            length: 1,
        }
    }),
    ("head value begins far outside", 0, |n, _| {
        n.head.parts[1][0] = Span {
            start: usize::MAX,
            length: 2,
        }
    }),
    ("patch above 99", 0, |n, _| n.head.patch = 100),
    ("language absent", 0, |n, _| n.head.parts[0][3].length = 0),
    ("edition as a value", 0, |n, _| {
        n.head.parts[0][0] = Span {
            start: 0,
            length: 3,
        }
    }),
    ("a part of the head too few", 0, |n, _| {
        drop(n.head.parts.pop())
    }),
    ("row value ends behind the text", 4, |n, end| {
        n.rows[3].parts[3][0] = Span {
            start: end - 1,
            length: 2,
        }
    }),
    ("row value longer than memory", 3, |n, _| {
        n.rows[2].parts[2][0] = Span {
            start: 1,
            length: usize::MAX,
        }
    }),
    ("unknown kind", 2, |n, _| n.rows[1].kind = b'Z'),
    ("kind 0", 4, |n, _| n.rows[3].kind = 0),
    ("heading with a package number", 1, |n, _| {
        n.rows[0].package = 2_394_428
    }),
    ("note with a recipe text", 4, |n, _| {
        n.rows[3].parts[2][0] = Span {
            start: 0,
            length: 1,
        }
    }),
    ("heading with a substance", 1, |n, _| {
        n.rows[0].parts[4][0] = Span {
            start: 0,
            length: 1,
        }
    }),
    ("a gap in the substances", 2, |n, _| {
        n.rows[1].parts[5] = vec![Span::default(); 2]
    }),
    ("strength without substance", 2, |n, _| {
        n.rows[1].parts[5] = vec![
            Span::default(),
            Span {
                start: 0,
                length: 1,
            },
        ]
    }),
    ("wrong check digit", 2, |n, _| n.rows[1].package += 1),
    // Its first eight digits are a package number.
    ("package number of nine digits", 2, |n, _| {
        n.rows[1].package = 110_845_080
    }),
    ("package number as a value", 2, |n, _| {
        n.rows[1].parts[1][0] = Span {
            start: 0,
            length: 1,
        }
    }),
];

#[test]
fn numbers_that_name_no_plan_are_refused_with_13_at_their_place() {
    for (what, place, change) in CHANGES {
        let (mut numbers, text) = laid();
        // The third substance is filled, so that a gap at the second shows.
        numbers.rows[1].parts[6][0] = numbers.rows[1].parts[5][0];
        assert_eq!(triple(plan_of(&text, &numbers)), (0, 0, 0));
        change(&mut numbers, text.len());
        assert_eq!(triple(plan_of(&text, &numbers)), (13, 0, place), "{what}");
        assert_eq!(
            triple(write_numbers(&text, &numbers)),
            (13, 0, place),
            "{what}"
        );
    }
}

#[test]
fn the_first_bad_row_is_told_whatever_is_bad_behind_it() {
    let (mut numbers, text) = laid();
    numbers.rows[2].parts[2][0] = Span {
        start: usize::MAX,
        length: 1,
    };
    numbers.rows[1].package = 1;
    assert_eq!(triple(write_numbers(&text, &numbers)), (13, 0, 2));
    numbers.head.patch = 200;
    assert_eq!(triple(write_numbers(&text, &numbers)), (13, 0, 0));
    numbers.rows = vec![numbers.rows[0].clone(); 257];
    assert_eq!(triple(write_numbers(&text, &numbers)), (1, 0, 0));
}

#[test]
fn a_kind_without_its_values_is_refused() {
    let (mut numbers, text) = laid();
    numbers.rows[3] = second::layout::RowNumbers::empty(b'X');
    assert_eq!(triple(write_numbers(&text, &numbers)), (13, 0, 4));
}
