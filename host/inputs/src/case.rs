//! Cases: for every seed one set of pages to hand in, of one of many kinds.

use crate::cut::{self, Cut};
use crate::damage;
use crate::disguise;
use crate::garbage::bytes_like_page;
use crate::plan::{Element, Plan, Shape, Value};
use crate::random::Random;
use crate::spelling::{self, Manner, LONGEST_PAGE};
use crate::values::{Fullness, Ink};

/// One set of pages to hand in.
#[derive(Clone, Debug, PartialEq)]
pub struct Case {
    /// The seed that gives this case again.
    pub seed: u64,
    /// The kind of case.
    pub what: &'static str,
    /// The pages in the order in which they are handed in.
    pub pages: Vec<Vec<u8>>,
    /// Another spelling, cut and order of the same plan; only for an undamaged case.
    pub twin: Option<Vec<Vec<u8>>>,
}

/// What a kind of case does to make its pages.
#[derive(Clone, Copy)]
enum Making {
    /// Pages of a plan that keeps every rule.
    Whole(fn(&mut Random) -> Plan),
    /// The same with damage to the elements of one page.
    Elements(fn(&mut Element, &mut Random)),
    /// The same with damage to the bytes of one page.
    Bytes(fn(&mut Vec<u8>, &mut Random)),
    /// The same with damage to the set of pages.
    Set(fn(&mut Vec<Vec<u8>>, &mut Random)),
    /// Bytes that were never a plan.
    Garbage,
}

/// Every kind of case with its share.
const KINDS: &[(&str, usize, Making)] = &[
    ("spelled", 14, Making::Whole(usual_plan)),
    ("small", 4, Making::Whole(small_plan)),
    ("long values", 4, Making::Whole(long_plan)),
    ("many rows", 4, Making::Whole(many_rows)),
    ("quotes", 5, Making::Whole(quotes_plan)),
    ("full pages", 4, Making::Whole(full_plan)),
    ("near miss", 14, Making::Elements(damage::near_miss)),
    ("date", 3, Making::Elements(damage::date)),
    ("reference", 4, Making::Elements(damage::bad_reference)),
    ("excluded pair", 4, Making::Elements(damage::excluded_pair)),
    ("attribute", 5, Making::Elements(damage::attribute)),
    ("missing field", 3, Making::Elements(damage::missing_field)),
    ("element", 5, Making::Elements(damage::element)),
    ("substances", 1, Making::Elements(damage::substances)),
    ("version", 3, Making::Elements(damage::version)),
    ("numbering", 4, Making::Elements(damage::numbering)),
    ("head", 4, Making::Elements(damage::head)),
    ("bytes", 7, Making::Bytes(damage::bytes)),
    ("forbidden byte", 2, Making::Bytes(damage::forbidden_byte)),
    ("size", 3, Making::Bytes(damage::size)),
    ("set", 5, Making::Set(damage::set)),
    ("foreign", 3, Making::Set(foreign_page)),
    ("garbage", 9, Making::Garbage),
];

/// The names of all kinds of case.
pub fn kinds() -> impl Iterator<Item = &'static str> {
    KINDS.iter().map(|(what, _, _)| *what)
}

/// The case of this seed.
pub fn case(seed: u64) -> Case {
    let mut random = Random::new(seed);
    let (what, making) = kind(&mut random);
    let (pages, twin) = match making {
        Making::Whole(plan) => whole(plan, &mut random),
        Making::Elements(harm) => (damaged_elements(harm, &mut random), None),
        Making::Bytes(harm) => (damaged_bytes(harm, &mut random), None),
        Making::Set(harm) => (damaged_set(harm, &mut random), None),
        Making::Garbage => (garbage(&mut random), None),
    };
    Case {
        seed,
        what,
        pages,
        twin,
    }
}

/// The listing that reading the case of this seed must give; only for an undamaged case of at most 256 rows.
pub fn meant_listing(seed: u64) -> Option<Vec<u8>> {
    let mut random = Random::new(seed);
    let (_, making) = kind(&mut random);
    let Making::Whole(make) = making else {
        return None;
    };
    let plan = fitting_plan(make, &mut random);
    (plan.rows.len() <= MOST_ROWS).then(|| plan.listing())
}

/// The refusals of which the case of this seed must get one, where the generator knows them: 9 for right pages of
/// which one has another head than the rest; 4, 6 or 7 for a reference that stands for no byte of a value.
pub fn meant_refusal(seed: u64) -> Option<&'static [u8]> {
    let mut random = Random::new(seed);
    match kind(&mut random) {
        ("head", _) => {
            let sheets = fitting_sheets(damage::head, &mut random)?;
            let first = disguise::head_listing(&sheets[0]);
            let differs = |sheet: &Element| disguise::head_listing(sheet) != first;
            sheets.iter().any(differs).then_some(&[9])
        }
        ("reference", _) => {
            let sheets = fitting_sheets(damage::bad_reference, &mut random)?;
            sheets.iter().any(Element::holds_raw).then_some(&[4, 6, 7])
        }
        _ => None,
    }
}

/// The damaged pages of a case, if each of them still has the size of a page.
fn fitting_sheets(
    harm: fn(&mut Element, &mut Random),
    random: &mut Random,
) -> Option<Vec<Element>> {
    let (sheets, _) = harmed_sheets(harm, random);
    let fits = |sheet: &Element| spelling::bare(sheet).len() <= LONGEST_PAGE;
    sheets.iter().all(fits).then_some(sheets)
}

const MOST_ROWS: usize = 256;

fn kind(random: &mut Random) -> (&'static str, Making) {
    let all: usize = KINDS.iter().map(|(_, share, _)| share).sum();
    let mut left = random.below(all);
    for (what, share, making) in KINDS {
        if left < *share {
            return (what, *making);
        }
        left -= share;
    }
    unreachable!("the shares add up to all")
}

/// A plan with only as many of its rows as nine pages can hold.
pub(crate) fn fitting_plan(make: fn(&mut Random) -> Plan, random: &mut Random) -> Plan {
    loop {
        let mut plan = make(random);
        if let Some(rows) = cut::most_rows(&plan) {
            plan.rows.truncate(rows);
            return plan;
        }
    }
}

/// The pages of a fitting plan in some cut, in their order.
pub(crate) fn sheets(plan: &Plan, manner: Manner, random: &mut Random) -> Vec<Element> {
    let cut = Cut::random(random);
    cut::pages(plan, cut, manner, random)
        .or_else(|| cut::pages(plan, Cut::FULL, manner, random))
        .expect("a fitting plan has a cut")
}

/// Spells the pages and puts them into another order.
fn scanned(sheets: &[Element], manner: Manner, random: &mut Random) -> Vec<Vec<u8>> {
    let spell = |sheet| spelling::page(sheet, manner, random);
    let mut pages: Vec<Vec<u8>> = sheets.iter().map(spell).collect();
    random.shuffle(&mut pages);
    pages
}

/// Some undamaged pages of the plan.
pub(crate) fn handed_in(plan: &Plan, random: &mut Random) -> Vec<Vec<u8>> {
    let manner = Manner::random(random);
    let sheets = sheets(plan, manner, random);
    scanned(&sheets, manner, random)
}

fn whole(
    make: fn(&mut Random) -> Plan,
    random: &mut Random,
) -> (Vec<Vec<u8>>, Option<Vec<Vec<u8>>>) {
    let plan = fitting_plan(make, random);
    let pages = handed_in(&plan, random);
    let twin = (plan.rows.len() <= MOST_ROWS).then(|| handed_in(&plan, random));
    (pages, twin)
}

/// A plan to be damaged: small ones often, since damage then hits every part of them.
pub(crate) fn any_plan(random: &mut Random) -> Plan {
    match random.below(10) {
        0..=3 => small_plan(random),
        4 => long_plan(random),
        _ => usual_plan(random),
    }
}

/// Does the damage to one page, and at times to a second one.
fn harm_some<T>(pages: &mut [T], harm: fn(&mut T, &mut Random), random: &mut Random) {
    let times = if random.chance(15) { 2 } else { 1 };
    for _ in 0..times {
        let place = random.below(pages.len());
        harm(&mut pages[place], random);
    }
}

fn damaged_elements(harm: fn(&mut Element, &mut Random), random: &mut Random) -> Vec<Vec<u8>> {
    let (sheets, manner) = harmed_sheets(harm, random);
    scanned(&sheets, manner, random)
}

/// The pages of some plan, in their order, after the damage, and the manner in which they are to be spelled.
fn harmed_sheets(
    harm: fn(&mut Element, &mut Random),
    random: &mut Random,
) -> (Vec<Element>, Manner) {
    let plan = fitting_plan(any_plan, random);
    let manner = Manner::random(random);
    let mut sheets = sheets(&plan, manner, random);
    harm_some(&mut sheets, harm, random);
    (sheets, manner)
}

fn damaged_bytes(harm: fn(&mut Vec<u8>, &mut Random), random: &mut Random) -> Vec<Vec<u8>> {
    let plan = fitting_plan(any_plan, random);
    let mut pages = handed_in(&plan, random);
    harm_some(&mut pages, harm, random);
    pages
}

fn damaged_set(harm: fn(&mut Vec<Vec<u8>>, &mut Random), random: &mut Random) -> Vec<Vec<u8>> {
    let plan = fitting_plan(any_plan, random);
    let mut pages = handed_in(&plan, random);
    harm(&mut pages, random);
    pages
}

/// Puts a page of another plan in the place of one, or beside them.
fn foreign_page(pages: &mut Vec<Vec<u8>>, random: &mut Random) {
    let other = fitting_plan(any_plan, random);
    let foreign = handed_in(&other, random).swap_remove(0);
    let place = random.below(pages.len());
    match random.chance(70) {
        true => pages[place] = foreign,
        false => pages.insert(place, foreign),
    }
}

/// Bytes that were never a page, alone or among right pages.
fn garbage(random: &mut Random) -> Vec<Vec<u8>> {
    let mut pages = Vec::new();
    if random.chance(15) {
        let plan = fitting_plan(small_plan, random);
        pages = handed_in(&plan, random);
    }
    let place = random.between(0, pages.len());
    pages.insert(place, bytes_like_page(random));
    pages
}

pub(crate) fn usual_plan(random: &mut Random) -> Plan {
    let rows = random.between(0, 14);
    let shape = Shape::usual(rows, random);
    Plan::random(shape, random)
}

pub(crate) fn small_plan(random: &mut Random) -> Plan {
    let fullness = Fullness {
        ink: Ink::Mixed,
        longest: 0,
        usual: 3,
    };
    let rows = random.between(0, 3);
    Plan::random(
        Shape {
            rows,
            optional: 8,
            head: fullness,
            row: fullness,
        },
        random,
    )
}

pub(crate) fn long_plan(random: &mut Random) -> Plan {
    let ink = *random.pick(&[Ink::Plain, Ink::Mixed]);
    let head = Fullness {
        ink,
        longest: *random.pick(&[0, 50]),
        usual: 6,
    };
    let row = Fullness {
        ink,
        longest: 50,
        usual: 30,
    };
    let rows = random.between(1, 12);
    Plan::random(
        Shape {
            rows,
            optional: 50,
            head,
            row,
        },
        random,
    )
}

/// Around 256 rows, nearly all of them the smallest notes.
pub(crate) fn many_rows(random: &mut Random) -> Plan {
    let head = Fullness {
        ink: Ink::Plain,
        longest: 0,
        usual: 6,
    };
    let row = Fullness {
        ink: Ink::Tiny,
        longest: 0,
        usual: 1,
    };
    let rows = *random.pick(&[240, 254, 255, 256, 256, 256, 257, 257, 258, 270, 400]);
    let mut plan = Plan::random(
        Shape {
            rows,
            optional: 5,
            head,
            row,
        },
        random,
    );
    for row in &mut plan.rows {
        if random.chance(4) {
            *row = Element::new("S");
            row.set("c", Value::Meant(b"412".to_vec()));
        }
    }
    plan
}

/// Values of double quotes, which fit on pages in single quotes and may not fit on fresh ones.
pub(crate) fn quotes_plan(random: &mut Random) -> Plan {
    let quotes = Fullness {
        ink: Ink::Quotes,
        longest: 40,
        usual: 40,
    };
    let plain = Fullness {
        ink: Ink::Plain,
        longest: 0,
        usual: 6,
    };
    let (head, row) = *random.pick(&[
        (quotes, plain),
        (plain, quotes),
        (plain, quotes),
        (quotes, quotes),
    ]);
    let rows = *random.pick(&[0, 1, 2, 5, 20, 60]);
    let optional = *random.pick(&[5, 30, 60]);
    Plan::random(
        Shape {
            rows,
            optional,
            head,
            row,
        },
        random,
    )
}

/// As many rows as nine pages can hold.
pub(crate) fn full_plan(random: &mut Random) -> Plan {
    let mut shape = Shape::usual(150, random);
    shape.row.longest = *random.pick(&[5, 30, 60]);
    shape.row.usual = 30;
    shape.head.longest = 0;
    Plan::random(shape, random)
}

#[cfg(test)]
mod tests {
    use super::*;
    use std::collections::BTreeSet;

    /// One sign of each freedom that a spelling has.
    const FREEDOMS: &[&str] = &[
        " =",
        "= ",
        "=\n",
        "\t=",
        "\r>",
        " >",
        " />",
        "</MP >",
        "</MP\t>",
        "> <",
        ">\r\n<",
        "<MP\n",
        "=\"",
        "='",
        "&amp;",
        "&lt;",
        "&gt;",
        "&quot;",
        "&apos;",
        "&#38;",
        "&#0",
        "&#x0",
        "&#x3c;",
        "&#x3C;",
        "&#xe4;",
        "&#xE4;",
        "=\"\"",
        "=''",
        "\" \"",
        " \" ",
        "\t\"",
        "a\r\n",
        "></P>",
        "></X>",
        "></S>",
        "<S/>",
        "<O/>",
        "</S><S>",
        "p=\"0\"",
        "p=\"00\"",
        "p=\"07\"",
        "p='0",
        "p=\"\"",
        "m=\"0\"",
        "h='0'",
        "l=\"de-DE\"",
        " p=\"0",
        "c=\"\"",
    ];

    #[test]
    fn one_seed_gives_one_case() {
        assert!((0..300).all(|seed| case(seed) == case(seed)));
    }

    #[test]
    fn other_seeds_give_other_cases() {
        let pages: BTreeSet<Vec<Vec<u8>>> = (0..1000).map(|seed| case(seed).pages).collect();
        assert!(pages.len() > 950, "{} different cases", pages.len());
    }

    #[test]
    fn every_kind_occurs() {
        let seen: BTreeSet<&str> = (0..1000).map(|seed| case(seed).what).collect();
        assert_eq!(seen, kinds().collect());
    }

    #[test]
    fn undamaged_cases_have_one_to_nine_pages_of_the_right_size() {
        for whole in (0..1500).map(case).filter(|case| case.twin.is_some()) {
            for pages in [&whole.pages, whole.twin.as_ref().unwrap()] {
                assert!((1..=9).contains(&pages.len()), "seed {}", whole.seed);
                let right = |page: &Vec<u8>| (1..=LONGEST_PAGE).contains(&page.len());
                assert!(pages.iter().all(right), "seed {}", whole.seed);
            }
        }
    }

    #[test]
    fn twins_are_mostly_spelled_or_cut_in_another_way() {
        let whole: Vec<Case> = (0..3000)
            .map(case)
            .filter(|case| case.twin.is_some())
            .collect();
        let same = whole
            .iter()
            .filter(|case| case.twin.as_ref() == Some(&case.pages))
            .count();
        assert!(same * 10 < whole.len(), "{same} of {}", whole.len());
    }

    #[test]
    fn undamaged_pages_show_every_freedom_of_spelling() {
        let cases = (0..1500).map(case).filter(|case| case.twin.is_some());
        let text: Vec<u8> = cases.flat_map(|case| case.pages).flatten().collect();
        for freedom in FREEDOMS {
            let found = text
                .windows(freedom.len())
                .any(|window| window == freedom.as_bytes());
            assert!(found, "{freedom:?} never occurs");
        }
    }

    #[test]
    fn single_pages_come_with_and_without_numbers() {
        let single = (0..1500)
            .map(case)
            .filter(|case| case.twin.is_some() && case.pages.len() == 1);
        let numbered = |case: Case| case.pages[0].windows(2).any(|window| window == b"z=");
        let (mut with, mut without) = (0, 0);
        for case in single {
            match numbered(case) {
                true => with += 1,
                false => without += 1,
            }
        }
        assert!(with > 20 && without > 20, "{with} with, {without} without");
    }

    #[test]
    fn every_number_of_pages_occurs() {
        let seen: BTreeSet<usize> = (0..2000).map(|seed| case(seed).pages.len()).collect();
        assert!((0..=12).all(|count| seen.contains(&count)), "{seen:?}");
    }

    #[test]
    fn other_heads_and_bad_references_are_meant_to_be_refused() {
        let meant = |number: u8| {
            let known = (0..2000).filter_map(meant_refusal);
            known.filter(|numbers| numbers.contains(&number)).count()
        };
        assert!(meant(9) > 20 && meant(7) > 40);
    }

    #[test]
    fn twins_and_meant_listings_belong_to_the_same_cases() {
        for seed in 0..2000 {
            assert_eq!(
                case(seed).twin.is_some(),
                meant_listing(seed).is_some(),
                "seed {seed}"
            );
        }
    }
}
