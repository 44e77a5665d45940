//! Runs the laws of the second program over a range of seeds: `laws FIRST COUNT`.

#[path = "../../laws/laws.rs"]
mod laws;

use laws::Tally;
use std::process::ExitCode;

const SHOWN_FAILURES: usize = 10;

fn main() -> ExitCode {
    let numbers: Vec<u64> = std::env::args()
        .skip(1)
        .filter_map(|word| word.parse().ok())
        .collect();
    let [first, count] = numbers[..] else {
        eprintln!("usage: laws FIRST COUNT");
        return ExitCode::from(2);
    };
    std::panic::set_hook(Box::new(|_| {}));
    let tally = laws::run(first, count);
    println!("seeds {first} to {}", first + count.saturating_sub(1));
    print(&tally);
    match tally.failures.is_empty() {
        true => ExitCode::SUCCESS,
        false => ExitCode::FAILURE,
    }
}

/// Prints the counts by kind, by answer and by answer of an index or a cell, the first failures, and the sums.
fn print(tally: &Tally) {
    for (kind, count) in &tally.kinds {
        println!("kind {kind}: {count}");
    }
    for (number, count) in &tally.answers {
        match number {
            0 => println!("read and written: {count}"),
            14 => println!("read, refused by the writer with 14: {count}"),
            _ => println!("refused with {number}: {count}"),
        }
    }
    for (what, count) in &tally.asked {
        println!("asked, {what}: {count}");
    }
    println!(
        "undamaged: {}, of them read: {}",
        tally.undamaged.0, tally.undamaged.1
    );
    for (seed, fault) in tally.failures.iter().take(SHOWN_FAILURES) {
        println!(
            "seed {seed}: {}",
            fault.chars().take(600).collect::<String>()
        );
    }
    println!("{} passed, {} failed", tally.passed, tally.failures.len());
}
