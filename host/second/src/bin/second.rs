//! The command of the second program: `planlist` lists, `fresh` writes fresh pages,
//! `planfind` finds a package number, `plancell` shows a cell.

use std::io::{Read, Write};

/// What `fresh` prints: the fresh pages with a zero byte between them, or
/// `refused:number:page:place`.
fn fresh(input: &[u8]) -> Vec<u8> {
    let pages: Vec<&[u8]> = input.split(|&byte| byte == 0).collect();
    match second::read(&pages).and_then(|plan| second::write(&plan)) {
        Ok(pages) => pages.join(&0),
        Err(refusal) => {
            let second::Refusal {
                number,
                page,
                place,
            } = refusal;
            format!("refused:{number}:{page}:{place}").into_bytes()
        }
    }
}

fn main() -> std::io::Result<()> {
    let answer: fn(&[u8]) -> Vec<u8> = match std::env::args().nth(1).as_deref() {
        Some("planlist") => second::planlist,
        Some("fresh") => fresh,
        Some("planfind") => second::planfind,
        Some("plancell") => second::plancell,
        _ => {
            eprintln!("second planlist | second fresh, with pages on standard input");
            eprintln!("second planfind, with a package number, a zero byte and pages");
            eprintln!("second plancell, with the numbers of a row and a field, which of three and");
            eprintln!("a catalogue's text, a zero byte behind each, and pages");
            std::process::exit(2);
        }
    };
    let mut input = Vec::new();
    std::io::stdin().read_to_end(&mut input)?;
    std::io::stdout().write_all(&answer(&input))
}
