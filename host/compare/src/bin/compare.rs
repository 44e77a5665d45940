//! `compare FIRST COUNT [PART]`: compares proved code with the second program on the inputs of COUNT seeds from FIRST on. PART is one of
//!   layers     the layers below writing, and reading (if no part is named)
//!   fresh      the plans of generated sets of pages, written fresh
//!   plans      plans in numbers that were made up, written
//!   collector  sequences of a collector
//!   index      indexes of rows and of sheets, built and asked
//!   cells      cells of plans in numbers
//!   printed    what planlist, planfresh, planfind and plancell print
//!   packages   package numbers; here FIRST and COUNT are of the numbers themselves

use std::collections::BTreeMap;

use compare::{cells, collecting, indexing, packages, printing, rounds, writing};

/// What is counted beside the seeds: how often each thing happened.
type Tally = BTreeMap<String, u64>;

fn layers(seed: u64, tally: &mut Tally) -> Vec<String> {
    let (answer, found) = rounds::differences(seed);
    *tally.entry(format!("answer {answer}")).or_default() += 1;
    found
}

fn fresh(seed: u64, tally: &mut Tally) -> Vec<String> {
    let case = inputs::case(seed);
    let Some(found) = writing::fresh(&format!("seed {seed}"), &case.pages) else {
        return Vec::new();
    };
    *tally.entry("plans".to_string()).or_default() += 1;
    found
}

fn plans(seed: u64, tally: &mut Tally) -> Vec<String> {
    let (told, found) = writing::made_up(seed);
    let mut count = |what: String, more: usize| *tally.entry(what).or_default() += more as u64;
    count(format!("answer {}", told.number), 1);
    count(format!("{}, answer {}", told.what, told.number), 1);
    count(format!("of {} pages", told.pages), 1);
    count("full pages".to_string(), told.full);
    found
}

fn collector(seed: u64, tally: &mut Tally) -> Vec<String> {
    let mut counts = collecting::Tally::new();
    let found = collecting::differences(seed, &mut counts);
    for ((what, number), count) in counts {
        *tally.entry(format!("{what}, answer {number}")).or_default() += count;
    }
    found
}

fn printed(seed: u64, _: &mut Tally) -> Vec<String> {
    printing::differences(seed)
}

fn main() {
    let words: Vec<String> = std::env::args().skip(1).collect();
    let number = |at: usize| words.get(at).and_then(|word| word.parse::<u64>().ok());
    let part: Option<fn(u64, &mut Tally) -> Vec<String>> = match words.get(2).map(String::as_str) {
        None | Some("layers") => Some(layers),
        Some("fresh") => Some(fresh),
        Some("plans") => Some(plans),
        Some("collector") => Some(collector),
        Some("index") => Some(indexing::differences),
        Some("cells") => Some(cells::differences),
        Some("printed") => Some(printed),
        Some("packages") => Some(packages::differences),
        Some(_) => None,
    };
    let (Some(first), Some(count), Some(part)) = (number(0), number(1), part) else {
        eprintln!("usage: compare FIRST COUNT [layers|fresh|plans|collector|index|cells|printed|packages]");
        std::process::exit(2);
    };
    println!("from {first} to {}", first + count - 1);
    let mut tally = Tally::new();
    let mut failed = u64::from(!rounds::tables().is_empty());
    for seed in first..first + count {
        let found = part(seed, &mut tally);
        for line in &found {
            println!("{line}");
        }
        failed += u64::from(!found.is_empty());
    }
    for (what, count) in tally {
        println!("{what}: {count}");
    }
    println!("{} passed, {failed} failed", count + 1 - failed);
    std::process::exit(i32::from(failed > 0));
}
