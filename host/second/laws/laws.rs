//! The laws that the second program keeps for every input. Each law is one function that says what it found wrong.

mod cell;
mod index;

use inputs::{joined, meant_listing, meant_refusal, Case, Random};
use second::{
    cut_exists, listing, planlist, read, refusal_lines, write, Answer, Collector, Plan, Refusal,
};
use std::collections::BTreeMap;
use std::panic::{catch_unwind, AssertUnwindSafe};

/// What a law says: nothing, or what went wrong.
type Verdict = Result<(), String>;

/// How often each answer to a question was given.
pub type Answers = BTreeMap<&'static str, usize>;

const MOST_PAGES: usize = 9;
const LONGEST_PAGE: usize = 1_400;
const LONGEST_TEXT: usize = 12_600;
const LONGEST_LISTING: usize = 25_200;
const LONGEST_INPUT: usize = 12_609;
const REFUSED_WITH_1: Refusal = Refusal {
    number: 1,
    page: 0,
    place: 0,
};

/// The search over all cuts takes long for many rows, so longer plans go through it in one case of sixteen.
const SEARCHED_ROWS: usize = 30;

/// What is known of an accepted set: its plan, the writer's answer and the listing.
#[derive(Clone, Debug)]
pub struct Accepted {
    plan: Plan,
    fresh: Result<Vec<Vec<u8>>, Refusal>,
    listing: Vec<u8>,
}

/// Counts over a range of seeds.
#[derive(Debug, Default)]
pub struct Tally {
    /// Cases by kind.
    pub kinds: BTreeMap<&'static str, usize>,
    /// Cases by answer: 0 for read and written, else the number of the refusal.
    pub answers: BTreeMap<u8, usize>,
    /// Undamaged cases, and how many of them were read.
    pub undamaged: (usize, usize),
    /// What was answered of an index and of a cell, and how often.
    pub asked: Answers,
    /// Each seed that failed, with what went wrong.
    pub failures: Vec<(u64, String)>,
    /// Cases that kept every law.
    pub passed: usize,
}

/// Runs every law over the seeds `first`, `first + 1` and so on, as many as asked for.
pub fn run(first: u64, count: u64) -> Tally {
    let mut tally = Tally::default();
    let mut earlier = None;
    for seed in first..first + count {
        let case = inputs::case(seed);
        *tally.kinds.entry(case.what).or_default() += 1;
        let checked = catch_unwind(AssertUnwindSafe(|| {
            index::check(seed, &mut tally.asked)?;
            cell::check(seed, &mut tally.asked)?;
            check(&case, &earlier)
        }));
        match checked.unwrap_or_else(|_| Err("no answer but a panic".to_string())) {
            Ok(answer) => {
                note(&mut tally, &case, &answer);
                earlier = answer.ok().or(earlier);
            }
            Err(fault) => tally
                .failures
                .push((seed, format!("{}: {fault}", case.what))),
        }
    }
    tally
}

fn note(tally: &mut Tally, case: &Case, answer: &Result<Accepted, Refusal>) {
    let number = match answer {
        Err(refusal) => refusal.number,
        Ok(accepted) => accepted
            .fresh
            .as_ref()
            .map_or_else(|refusal| refusal.number, |_| 0),
    };
    *tally.answers.entry(number).or_default() += 1;
    tally.undamaged.0 += usize::from(case.twin.is_some());
    tally.undamaged.1 += usize::from(case.twin.is_some() && answer.is_ok());
    tally.passed += 1;
}

/// Tries every law on one case; the answer is what reading gave.
pub fn check(case: &Case, earlier: &Option<Accepted>) -> Result<Result<Accepted, Refusal>, String> {
    let answer = read(&slices(&case.pages));
    planlist_prints_the_answer(&case.pages, &answer)?;
    orders_are_alike(case, &answer)?;
    meant_refusals_are_given(case, &answer)?;
    match answer {
        Err(refusal) => {
            refused_place_lies_on_its_page(&case.pages, &refusal)?;
            malformed_place_is_the_first_wrong_byte(&case.pages, &refusal)?;
            undamaged_pages_are_read(case, &refusal)?;
            collector_refuses_alike(&case.pages, &refusal)?;
            Ok(Err(refusal))
        }
        Ok(plan) => check_accepted(case, plan, earlier).map(Ok),
    }
}

fn check_accepted(case: &Case, plan: Plan, earlier: &Option<Accepted>) -> Result<Accepted, String> {
    let accepted = Accepted {
        fresh: write(&plan),
        listing: listing(&plan),
        plan,
    };
    fresh_pages_read_back(&accepted)?;
    if accepted.plan.rows.len() <= SEARCHED_ROWS || case.seed % 16 == 0 {
        fewest_sheets_are_used(&accepted)?;
    }
    listing_is_as_meant(case, &accepted)?;
    twin_is_alike(case, &accepted)?;
    other_plans_look_other(&accepted, earlier)?;
    collector_reads_alike(case, &accepted.plan)?;
    collector_compares_bytes(&case.pages[0])?;
    Ok(accepted)
}

fn slices(pages: &[Vec<u8>]) -> Vec<&[u8]> {
    pages.iter().map(Vec::as_slice).collect()
}

/// The number that a text of one to eight digits is.
fn number_of(text: &[u8]) -> Option<u32> {
    let digits = std::str::from_utf8(text).ok()?;
    let right = digits.len() <= 8 && digits.bytes().all(|byte| byte.is_ascii_digit());
    digits.parse().ok().filter(|_| right)
}

fn demand(kept: bool, fault: impl Fn() -> String) -> Verdict {
    kept.then_some(()).ok_or_else(fault)
}

/// Planlist prints the listing or the three lines of the refusal, wherever its input can state the same pages.
fn planlist_prints_the_answer(pages: &[Vec<u8>], answer: &Result<Plan, Refusal>) -> Verdict {
    let input = joined(pages);
    let zeros = pages.iter().any(|page| page.contains(&0));
    if zeros || pages.is_empty() || input.len() > LONGEST_INPUT {
        return Ok(drop(planlist(&input)));
    }
    let expected = match answer {
        Ok(plan) => listing(plan),
        Err(refusal) => refusal_lines(refusal),
    };
    demand(planlist(&input) == expected, || {
        format!("planlist differs from {answer:?}")
    })
}

/// A refusal names a page that was handed in and a place on it that fits its number.
fn refused_place_lies_on_its_page(pages: &[Vec<u8>], refusal: &Refusal) -> Verdict {
    let Refusal {
        number,
        page,
        place,
    } = *refusal;
    let handed_in = (1..=pages.len()).contains(&page);
    let bytes: &[u8] = if handed_in { &pages[page - 1] } else { &[] };
    let allowed = |byte: &u8| matches!(byte, 9 | 10 | 13 | 32..=126 | 160..=255);
    let right = match number {
        1 => (page, place) == (0, 0) && !(1..=MOST_PAGES).contains(&pages.len()),
        2 => handed_in && place == 0 && !(1..=LONGEST_PAGE).contains(&bytes.len()),
        3 => handed_in && bytes.iter().position(|byte| !allowed(byte)) == Some(place),
        4 => handed_in && place <= bytes.len(),
        5..=8 => handed_in && bytes.get(place) == Some(&b'<'),
        9 | 10 => handed_in && page > 1 && place == 0,
        11 => (1..=MOST_PAGES).contains(&page) && place == 0,
        12 => (page, place) == (0, 0),
        _ => false,
    };
    demand(right, || format!("{refusal:?} does not fit the pages"))
}

/// Where a page is malformed, its beginning up to the place is not wrong yet, and one byte further it is wrong there.
fn malformed_place_is_the_first_wrong_byte(pages: &[Vec<u8>], refusal: &Refusal) -> Verdict {
    if refusal.number != 4 {
        return Ok(());
    }
    let (page, place) = (&pages[refusal.page - 1], refusal.place);
    let wrong_at = |end: usize| match read(&[&page[..end]]) {
        Err(Refusal {
            number: 4, place, ..
        }) => Some(place),
        _ => None,
    };
    let before = wrong_at(place);
    demand(before.is_none_or(|earlier| earlier == place), || {
        format!("malformed at {place}, but its beginning already at {before:?}")
    })?;
    let further = place == page.len() || wrong_at(place + 1) == Some(place);
    demand(further, || {
        format!("malformed at {place}, but not with that byte alone")
    })
}

/// Where the generator knows which refusals are right, one of them is given.
fn meant_refusals_are_given(case: &Case, answer: &Result<Plan, Refusal>) -> Verdict {
    let given = answer.as_ref().err().map_or(0, |refusal| refusal.number);
    let right = meant_refusal(case.seed).is_none_or(|meant| meant.contains(&given));
    demand(right, || format!("answer {given}, where another was meant"))
}

/// The generator's undamaged pages are read.
fn undamaged_pages_are_read(case: &Case, refusal: &Refusal) -> Verdict {
    demand(case.twin.is_none(), || {
        format!("undamaged pages refused with {refusal:?}")
    })
}

/// Orders of so many things: all of them up to four, else the reverse and a few random ones.
fn orders(count: usize, seed: u64) -> Vec<Vec<usize>> {
    let straight: Vec<usize> = (0..count).collect();
    if count > 4 {
        let mut random = Random::new(seed);
        let mut orders = vec![straight.iter().rev().copied().collect()];
        for _ in 0..2 {
            let mut order = straight.clone();
            random.shuffle(&mut order);
            orders.push(order);
        }
        return orders;
    }
    let mut orders = vec![Vec::new()];
    for thing in 0..count {
        let longer = |order: &Vec<usize>| {
            let put = |place: usize| [&order[..place], &[thing], &order[place..]].concat();
            (0..=order.len()).map(put).collect::<Vec<_>>()
        };
        orders = orders.iter().flat_map(longer).collect();
    }
    orders
}

/// A set is read to the same plan in every order, or refused in every order.
fn orders_are_alike(case: &Case, answer: &Result<Plan, Refusal>) -> Verdict {
    let pages = slices(&case.pages);
    for order in orders(pages.len(), case.seed) {
        let reordered: Vec<&[u8]> = order.iter().map(|place| pages[*place]).collect();
        let other = read(&reordered);
        let alike = other.is_err() && answer.is_err() || other == *answer;
        demand(alike, || {
            format!("in the order {order:?} the pages give {other:?}")
        })?;
    }
    Ok(())
}

/// Writing gives one to nine pages of the right size, which read back to the plan and are written alike, or 14.
fn fresh_pages_read_back(accepted: &Accepted) -> Verdict {
    let fresh = match &accepted.fresh {
        Ok(fresh) => fresh,
        Err(refusal) => {
            return demand(refusal.number == 14, || {
                format!("the writer refuses with {refusal:?}")
            })
        }
    };
    demand((1..=MOST_PAGES).contains(&fresh.len()), || {
        format!("{} fresh pages", fresh.len())
    })?;
    let right = |page: &Vec<u8>| (1..=LONGEST_PAGE).contains(&page.len());
    demand(fresh.iter().all(right), || {
        "a fresh page is empty or too long".to_string()
    })?;
    let again = read(&slices(fresh));
    demand(again.as_ref() == Ok(&accepted.plan), || {
        format!("fresh pages read back to {again:?}")
    })?;
    each_page_is_filled(fresh)?;
    demand(write(&accepted.plan).as_ref() == Ok(fresh), || {
        "written again, the pages differ".to_string()
    })?;
    demand(planlist(&joined(fresh)) == accepted.listing, || {
        "fresh pages list in another way".to_string()
    })
}

/// Each fresh page but the last is so full that the first row of the next one would not fit on it.
fn each_page_is_filled(fresh: &[Vec<u8>]) -> Verdict {
    for pair in fresh.windows(2) {
        let grown = pair[0].len() + first_row_size(&pair[1]);
        demand(grown > LONGEST_PAGE, || {
            format!("a page has room for {grown} bytes with one row more")
        })?;
    }
    Ok(())
}

/// The bytes that the first row of a fresh page would add to the page before it. No value of a fresh page holds a
/// raw `<`, so rows are found by the beginnings of their tags.
fn first_row_size(page: &[u8]) -> usize {
    const BEGINNINGS: [&[u8]; 7] = [b"<S>", b"<S ", b"<M ", b"<M>", b"<R ", b"<X ", b"</S>"];
    let begins = |place: &usize| BEGINNINGS.iter().any(|tag| page[*place..].starts_with(tag));
    let places: Vec<usize> = (0..page.len()).filter(begins).collect();
    match page[places[0]..].starts_with(b"<S>") {
        true => places[2] - places[1],
        false => places[1] - places[0] + "</S>".len(),
    }
}

/// No cut has fewer pages than the fresh ones, and 14 names the first row up to which no cut exists.
fn fewest_sheets_are_used(accepted: &Accepted) -> Verdict {
    let (plan, rows) = (&accepted.plan, accepted.plan.rows.len());
    match &accepted.fresh {
        Ok(fresh) => {
            demand(cut_exists(plan, rows, fresh.len()), || {
                "no cut has as many pages as the fresh ones".to_string()
            })?;
            let fewer = fresh.len() > 1 && cut_exists(plan, rows, fresh.len() - 1);
            demand(!fewer, || {
                format!("{} fresh pages, though fewer would do", fresh.len())
            })
        }
        Err(Refusal { page: 0, place, .. }) if *place <= rows => {
            demand(!cut_exists(plan, rows, MOST_PAGES), || {
                "14 although a cut exists".to_string()
            })?;
            demand(!cut_exists(plan, *place, MOST_PAGES), || {
                format!("14 at row {place}, which has a cut")
            })?;
            let before = *place == 0 || cut_exists(plan, place - 1, MOST_PAGES);
            demand(before, || {
                format!("14 at row {place}, though an earlier row has no cut")
            })
        }
        Err(refusal) => Err(format!("{refusal:?} points outside the plan")),
    }
}

/// The listing is what the generator meant, and it and the text laid out stay within their rooms.
fn listing_is_as_meant(case: &Case, accepted: &Accepted) -> Verdict {
    let meant = match case.twin {
        Some(_) => meant_listing(case.seed),
        None => None,
    };
    let lines = &accepted.listing;
    demand(meant.is_none_or(|meant| meant == *lines), || {
        "the listing is not what was meant".to_string()
    })?;
    demand(lines.len() <= LONGEST_LISTING, || {
        format!("a listing of {} bytes", lines.len())
    })?;
    let text = text_length(lines);
    demand(text <= LONGEST_TEXT, || format!("a text of {text} bytes"))
}

/// The bytes that reading lays into the text room: every listed value but version, patch and package number.
fn text_length(listing: &[u8]) -> usize {
    let mut length = 0;
    for line in listing.split(|byte| *byte == b'\n') {
        let Some(equals) = line.iter().position(|byte| *byte == b'=') else {
            continue;
        };
        let unlaid: [&[u8]; 5] = [b"MP.v", b"MP.p", b"MP.S.M.p", b"row", b"rows"];
        if !unlaid.contains(&&line[..equals]) {
            length += line.len() - equals - 1;
        }
    }
    length
}

/// Another spelling, cut and order of the plan gives the same plan, listing and fresh pages.
fn twin_is_alike(case: &Case, accepted: &Accepted) -> Verdict {
    let Some(twin) = &case.twin else {
        return Ok(());
    };
    let plan =
        read(&slices(twin)).map_err(|refusal| format!("the twin is refused with {refusal:?}"))?;
    demand(plan == accepted.plan, || {
        format!("the twin reads as {plan:?}")
    })?;
    demand(write(&plan) == accepted.fresh, || {
        "the twin is written in another way".to_string()
    })?;
    demand(listing(&plan) == accepted.listing, || {
        "the twin lists in another way".to_string()
    })
}

/// Plans that differ have other listings and other fresh pages: the earlier case's plan, and this one with a row
/// less, two rows exchanged, or another patch.
fn other_plans_look_other(accepted: &Accepted, earlier: &Option<Accepted>) -> Verdict {
    let mut others = neighbours(&accepted.plan);
    others.extend(earlier.iter().map(|earlier| earlier.plan.clone()));
    for other in others {
        let same = other == accepted.plan;
        let same_listing = listing(&other) == accepted.listing;
        demand(same == same_listing, || {
            format!("equal plans {same}, equal listings {same_listing}")
        })?;
        if let (Ok(fresh), Ok(pages)) = (&accepted.fresh, write(&other)) {
            demand(same == (pages == *fresh), || {
                format!("equal plans {same}, but not so their pages")
            })?;
        }
    }
    Ok(())
}

fn neighbours(plan: &Plan) -> Vec<Plan> {
    let mut patched = plan.clone();
    patched.head.patch = (plan.head.patch + 1) % 100;
    let mut neighbours = vec![patched];
    if !plan.rows.is_empty() {
        let (mut shorter, mut turned) = (plan.clone(), plan.clone());
        shorter.rows.pop();
        turned.rows.rotate_left(1);
        neighbours.extend([shorter, turned]);
    }
    neighbours
}

/// Fed a set that reads, in any order, the collector tells what is missing and in the end reads the same plan.
fn collector_reads_alike(case: &Case, plan: &Plan) -> Verdict {
    let count = case.pages.len();
    for order in orders(count, case.seed + 1).into_iter().take(4) {
        let mut collector = Collector::new();
        let empty = collector.read().err().map(|refusal| refusal.number);
        demand(empty == Some(1) && collector.missing_count() == 0, || {
            "an empty collector reads".to_string()
        })?;
        for (fed, place) in order.iter().enumerate() {
            feed(&mut collector, &case.pages[*place], count - fed - 1)?;
        }
        let answer = collector.read();
        demand(answer.as_ref() == Ok(plan), || {
            format!("the collector reads {answer:?}")
        })?;
        collector.clear();
        demand(collector == Collector::new(), || {
            "a cleared collector is not empty".to_string()
        })?;
    }
    Ok(())
}

/// Adds a page that the collector does not have, after which so many are missing, and adds it once more.
fn feed(collector: &mut Collector, page: &[u8], missing: usize) -> Verdict {
    let answer = collector.add(page);
    demand(answer == Answer::Added, || {
        format!("the collector answers {answer:?}")
    })?;
    demand(collector.missing_count() as usize == missing, || {
        format!("{:b} missing", collector.missing())
    })?;
    if missing > 0 {
        let lowest = collector.missing().trailing_zeros() as usize;
        let expected = Refusal {
            number: 11,
            page: lowest,
            place: 0,
        };
        let answer = collector.read();
        demand(answer == Err(expected), || {
            format!("incomplete, the collector reads {answer:?}")
        })?;
    }
    let before = collector.clone();
    let again = collector.add(page);
    demand(again == Answer::AlreadyHere, || {
        format!("the page once more gives {again:?}")
    })?;
    demand(*collector == before, || {
        "the page once more changes the collector".to_string()
    })
}

/// A page that the collector has is refused with 10 when its bytes differ, be it by the place of one space.
fn collector_compares_bytes(page: &[u8]) -> Verdict {
    if page.len() == LONGEST_PAGE {
        return Ok(());
    }
    let (before, behind) = ([b" ", page].concat(), [page, b" "].concat());
    let mut collector = Collector::new();
    let answers = [
        collector.add(&before),
        collector.add(&behind),
        collector.add(&before),
    ];
    let refused = Answer::Refused(Refusal {
        number: 10,
        page: 1,
        place: 0,
    });
    let expected = [Answer::Added, refused, Answer::AlreadyHere];
    demand(answers == expected, || {
        format!("two spellings of a page give {answers:?}")
    })
}

/// Fed a set that is refused, the collector refuses the same page alone, or stays incomplete, or reads to the same
/// refusal; and a refused page never changes it.
fn collector_refuses_alike(pages: &[Vec<u8>], refusal: &Refusal) -> Verdict {
    let mut collector = Collector::new();
    let mut all_added = true;
    for page in pages {
        let before = collector.clone();
        let answer = collector.add(page);
        all_added &= answer == Answer::Added;
        let kept = answer == Answer::Added || collector == before;
        demand(kept, || {
            "a page that was not added changes the collector".to_string()
        })?;
    }
    match refusal.number {
        2..=8 => {
            let alone = Collector::new().add(&pages[refusal.page - 1]);
            let expected = Answer::Refused(Refusal {
                page: 1,
                ..refusal.clone()
            });
            demand(alone == expected, || {
                format!("{refusal:?} for the set, {alone:?} for the page alone")
            })
        }
        9 | 10 => demand(!all_added, || {
            format!("{refusal:?}, but the collector takes every page")
        }),
        11 | 12 => {
            let answer = collector.read();
            demand(answer.as_ref() == Err(refusal), || {
                format!("{refusal:?}, but the collector reads {answer:?}")
            })
        }
        _ => Ok(()),
    }
}
