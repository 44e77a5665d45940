//! `bench`: how long the proved library takes on the nine full pages of one plan, beside the bare parse of the same pages by XML libraries and one table
//! look-up per byte. It prints the table of docs/BENCH.md. `bench WORK COUNT` does one of these COUNT times and prints nothing, for a profile.

mod border;

use std::hint::black_box;
use std::time::{Duration, Instant};

use border::{Asked, Call, Peer};
use inputs::{case, Random};
use second::cell::{cell_of, Source, SUBSTANCE};
use second::class::CLASSES;

/// How often each work is done; the quickest time counts. All works take turns, so that other work on the machine hits them alike.
const ROUNDS: usize = 1_001;

/// A catalogue's text for a third substance, cut as far back as a text may be: before the first of the ten bytes that are looked at.
const CATALOGUE: &[u8] =
    b"Metoprololsuccinat, Hydrochlorothiazid und Amlodipinbesilat jeweils Filmtablettenanteil";

/// What is measured: its short name, its words, and what it does with the pages.
struct Work<'a> {
    name: &'static str,
    words: &'static str,
    run: Box<dyn FnMut() -> usize + 'a>,
}

/// The first so many generated calls whose pages pass the test, each with its seed.
fn generated(count: usize, test: impl Fn(&[Vec<u8>]) -> bool) -> Vec<(u64, Vec<Vec<u8>>)> {
    (0..)
        .map(|seed| (seed, case(seed).pages))
        .filter(|(_, pages)| test(pages))
        .take(count)
        .collect()
}

fn views(pages: &[Vec<u8>]) -> Vec<&[u8]> {
    pages.iter().map(Vec::as_slice).collect()
}

/// Whether the pages are a plan on nine pages that all have 1,300 to 1,400 bytes.
fn nine_full(pages: &[Vec<u8>]) -> bool {
    let full = |page: &Vec<u8>| (1_300..=1_400).contains(&page.len());
    pages.len() == 9 && pages.iter().all(full) && second::read(&views(pages)).is_ok()
}

/// Whether there is one page, of at least 400 bytes, and it is a plan.
fn one_page(pages: &[Vec<u8>]) -> bool {
    pages.len() == 1 && pages[0].len() >= 400 && second::read(&views(pages)).is_ok()
}

/// Whether there is one page, of at least 1,000 bytes, and it is refused for an element, an attribute or a value.
fn faulty_page(pages: &[Vec<u8>]) -> bool {
    let faulty = || second::read(&views(pages)).is_err_and(|no| (5..=8).contains(&no.number));
    pages.len() == 1 && pages[0].len() >= 1_000 && faulty()
}

/// A further measurement: its words, the pages, what is done with them or with their plan, and what it is measured beside.
type Further = (String, Vec<Vec<u8>>, &'static str, &'static str);

/// Further calls: reading them, and of the same plan on fresh pages listing and writing too.
fn further(nine: &[Vec<u8>]) -> Vec<Further> {
    let plan = second::read(&views(nine)).expect("the pages are a plan");
    let fresh = second::write(&plan).expect("the plan fits on nine fresh pages");
    let mut all: Vec<Further> = [
        ("the same plan on fresh pages", "read"),
        ("the same, listed", "list"),
        ("that plan, written", "write"),
    ]
    .map(|(words, work)| (words.to_string(), fresh.clone(), work, "pugixml"))
    .to_vec();
    let mut add = |words: &str, calls: Vec<(u64, Vec<Vec<u8>>)>, beside| {
        let named = |(seed, pages)| (format!("{words} (seed {seed})"), pages, "read", beside);
        all.extend(calls.into_iter().map(named));
    };
    add(
        "another plan",
        generated(6, nine_full)[1..].to_vec(),
        "pugixml",
    );
    add("one page", generated(3, one_page), "pugixml");
    add("a refused page", generated(3, faulty_page), "judging it");
    all
}

/// The quickest of a work on a call, and the quickest of what it is measured beside, in seconds; the two take turns.
fn beside(pages: &[Vec<u8>], work: &'static str, beside: &str) -> (f64, f64) {
    let call = Call::new(pages);
    let mut rooms = border::Rooms::new();
    rooms.read(&call);
    let mut works = [
        Work {
            name: work,
            words: "",
            run: match work {
                "list" => Box::new(|| rooms.list(&call)),
                "write" => Box::new(|| rooms.write()),
                _ => Box::new(|| rooms.read(&call)),
            },
        },
        Work {
            name: "other",
            words: "",
            run: match beside {
                "pugixml" => {
                    let parse = |page: &Vec<u8>| border::peer(border::peer_pugixml, page);
                    Box::new(move || pages.iter().map(parse).sum())
                }
                _ => Box::new(|| pages.iter().map(|page| border::judge(page)).sum()),
            },
        },
    ];
    let times = quickest(&mut works);
    (times[0].as_secs_f64(), times[1].as_secs_f64())
}

fn look_up(pages: &[Vec<u8>]) -> usize {
    let each = |page: &Vec<u8>| {
        page.iter()
            .map(|&byte| CLASSES[byte as usize] as usize)
            .sum::<usize>()
    };
    pages.iter().map(each).sum()
}

/// The length of all fresh pages by the second program, 0 for a refusal.
fn fresh_length(pages: &[&[u8]]) -> usize {
    let written = second::read(pages).and_then(|plan| second::write(&plan));
    written.map_or(0, |pages| pages.iter().map(Vec::len).sum())
}

/// The rows that show the catalogue's text for a third substance, and how much of it each leaves out, by the second program.
fn lent(pages: &[&[u8]]) -> Vec<(usize, usize)> {
    let shown = |row| {
        let cell = cell_of(pages, CATALOGUE, row, SUBSTANCE, 3).ok();
        let lent = cell.filter(|cell| cell.source == Source::Catalogue);
        lent.map(|cell| (row, cell.left_out))
    };
    (1..=256).filter_map(shown).collect()
}

/// Every work on these pages. Each is seen to answer rightly before it is measured.
fn works<'a>(pages: &'a [Vec<u8>], call: &'a Call) -> Vec<Work<'a>> {
    let views = views(pages);
    let (again, afresh) = (views.clone(), views.clone());
    let peer = |parse: Peer| {
        move || {
            pages
                .iter()
                .map(|page| border::peer(parse, page))
                .sum::<usize>()
        }
    };
    let rooms = || border::Rooms::new();
    let (mut reading, mut listing, mut writing, mut fresh) = (rooms(), rooms(), rooms(), rooms());
    writing.read(call);
    let (mut building, mut asking, mut finding) = (rooms(), rooms(), rooms());
    let (mut most, mut asking_most) = (rooms(), rooms());
    let (mut showing, mut printing) = (rooms(), rooms());
    showing.read(call);
    let asked = Asked {
        row: lent(&views)[0].0,
        field: SUBSTANCE as u32,
        which: 3,
        catalogue: CATALOGUE,
    };
    building.read(call);
    asking.read(call);
    asking.build();
    let number = asking.numbers()[0];
    most.number_all();
    asking_most.number_all();
    asking_most.build();
    let mut all: Vec<Work<'a>> = Vec::new();
    let mut add =
        |name, words, run: Box<dyn FnMut() -> usize + 'a>| all.push(Work { name, words, run });
    add(
        "look-up",
        "one table look-up per byte, in Rust",
        Box::new(|| look_up(pages)),
    );
    add(
        "bytes",
        "the first refused byte (refusal 3)",
        Box::new(|| pages.iter().map(|page| border::first_refused(page)).sum()),
    );
    add(
        "scan",
        "the scan (refusal 4)",
        Box::new(|| pages.iter().map(|page| border::scan(page)).sum()),
    );
    add(
        "judge",
        "each page judged (refusals 2 to 8)",
        Box::new(|| pages.iter().map(|page| border::judge(page)).sum()),
    );
    add(
        "read",
        "**reading**: judged, joined, laid into rows and text",
        Box::new(move || reading.read(call)),
    );
    add(
        "list",
        "**listing**: reading, and the lines of the plan",
        Box::new(move || listing.list(call)),
    );
    add(
        "write",
        "**writing** alone: the plan as read, to fresh pages",
        Box::new(move || writing.write()),
    );
    add(
        "fresh",
        "**fresh pages**: reading and writing",
        Box::new(move || fresh.fresh(call)),
    );
    add(
        "index",
        "**the index** of the plan as read, built alone",
        Box::new(move || building.build()),
    );
    add(
        "ask",
        "**a question** about it: first row and count, the index tested",
        Box::new(move || asking.ask(number)),
    );
    add(
        "index-256",
        "the index of 256 rows in the order that takes longest",
        Box::new(move || most.build()),
    );
    add(
        "ask-256",
        "a question about that",
        Box::new(move || asking_most.ask(256)),
    );
    add(
        "find",
        "**finding** a number: reading, the index, a question",
        Box::new(move || finding.find(call, number)),
    );
    add(
        "show",
        "**a cell in each row** of the plan as read, cut at a word where it is the catalogue's",
        Box::new(move || showing.show(asked)),
    );
    add(
        "cell",
        "**a printed cell** of the pages: reading, and the cell",
        Box::new(move || printing.cell(call, asked)),
    );
    add(
        "second-read",
        "the second program's reading, in Rust, unproved",
        Box::new(move || second::read(&views).map_or(0, |plan| plan.rows.len())),
    );
    add(
        "second-list",
        "the second program's listing",
        Box::new(move || second::read(&again).map_or(0, |plan| second::listing(&plan).len())),
    );
    add(
        "second-fresh",
        "the second program's fresh pages",
        Box::new(move || fresh_length(&afresh)),
    );
    add(
        "pugixml",
        "pugixml, bare parse",
        Box::new(peer(border::peer_pugixml)),
    );
    add(
        "expat",
        "expat, bare parse",
        Box::new(peer(border::peer_expat)),
    );
    add(
        "libxml2",
        "libxml2, bare parse",
        Box::new(peer(border::peer_libxml2)),
    );
    all
}

/// Whether every proved work's answer, the second program's and every peer's are what they must be, so that no refusal is measured.
fn right(works: &mut [Work], pages: &[Vec<u8>]) -> bool {
    let views = views(pages);
    let plan = second::read(&views).expect("the pages are a plan");
    let (rows, lines) = (plan.rows.len(), second::listing(&plan).len());
    let index = second::index::index_of(&second::layout::lay(&plan).0.rows);
    let first = index.iter().min_by_key(|pair| pair.row);
    let number = first.expect("some row has a package number").number;
    let held = index.iter().filter(|pair| pair.number == number).count();
    let left_out: Vec<usize> = lent(&views).into_iter().map(|(_, left)| left).collect();
    let fresh = fresh_length(&views);
    assert!(fresh > 0, "the plan fits on nine fresh pages");
    works.iter_mut().all(|work| {
        let answer = (work.run)();
        match work.name {
            "judge" => answer == 0,
            "read" | "second-read" => answer == rows,
            "list" | "second-list" => answer == lines,
            "write" | "fresh" | "second-fresh" => answer == fresh,
            "index" => answer == index.len(),
            "index-256" => answer == 256,
            "ask" | "find" => answer == held,
            "ask-256" => answer == 1,
            "show" => answer == left_out.iter().sum::<usize>(),
            "cell" => answer == left_out[0],
            "pugixml" | "expat" | "libxml2" => answer == pages.len(),
            "scan" => answer == 2_000 * pages.len(),
            "bytes" => answer == pages.iter().map(Vec::len).sum::<usize>(),
            _ => true,
        }
    })
}

fn quickest(works: &mut [Work]) -> Vec<Duration> {
    let mut least = vec![Duration::MAX; works.len()];
    let mut random = Random::new(1);
    for _ in 0..ROUNDS {
        let first = random.below(works.len());
        for step in 0..works.len() {
            let at = (first + step) % works.len();
            let start = Instant::now();
            black_box((works[at].run)());
            least[at] = least[at].min(start.elapsed());
        }
    }
    least
}

fn main() {
    let (seed, pages) = generated(1, nine_full).remove(0);
    let call = Call::new(&pages);
    let mut works = works(&pages, &call);
    assert!(right(&mut works, &pages), "a work gives a wrong answer");
    let words: Vec<String> = std::env::args().skip(1).collect();
    if let [name, count] = &words[..] {
        let work = works.iter_mut().find(|work| work.name == name);
        let work = work.expect("the name of a work");
        for _ in 0..count.parse().expect("a number of times") {
            black_box((work.run)());
        }
        return;
    }
    let bytes: usize = pages.iter().map(Vec::len).sum();
    let times = quickest(&mut works);
    let seconds = |name: &str| {
        let at = works.iter().position(|work| work.name == name);
        times[at.expect("the name of a work")].as_secs_f64()
    };
    println!(
        "Nine pages, {bytes} bytes together (seed {seed}), the quickest of {ROUNDS} runs, {}:\n",
        std::env::consts::ARCH
    );
    println!("| What | a byte | to one look-up | to pugixml | to reading |\n|---|---|---|---|---|");
    for (work, time) in works.iter().zip(&times) {
        let time = time.as_secs_f64();
        println!(
            "| {} | {:.2} ns | {:.1} | {:.2} | {:.3} |",
            work.words,
            time * 1e9 / bytes as f64,
            time / seconds("look-up"),
            time / seconds("pugixml"),
            time / seconds("read"),
        );
    }
    println!(
        "\nReading other calls, and listing and writing one, each in turns with the bare parse of its pages, or with judging them:\n"
    );
    println!("| Call | pages | bytes | a byte | to that |\n|---|---|---|---|---|");
    for (words, pages, work, other) in further(&pages) {
        let bytes: usize = pages.iter().map(Vec::len).sum();
        let (taken, time) = beside(&pages, work, other);
        println!(
            "| {words} | {} | {bytes} | {:.2} ns | {:.2} of {other} |",
            pages.len(),
            taken * 1e9 / bytes as f64,
            taken / time,
        );
    }
}
