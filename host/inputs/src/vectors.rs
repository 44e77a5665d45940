//! Answered cases from a file: what planlist prints for a set of pages, and its fresh pages or the writer's refusal; what an index of package numbers answers;
//! and what a cell shows.

use std::fs::read_to_string;
use std::path::{Path, PathBuf};

use crate::cell::asking;
use crate::joined;

/// One case: its line in the file, its kind, its pages, what planlist prints, and the fresh pages or the number, page and place of the refusal.
pub struct Vector {
    pub line: usize,
    pub kind: String,
    pub pages: Vec<Vec<u8>>,
    pub listing: Vec<u8>,
    pub fresh: Result<Vec<Vec<u8>>, [usize; 3]>,
}

/// One case of an index: its line in the file, its kind, its pages, the index as built for them and the one asked with (pairs of number and row), a number
/// and k; the first row and the count of rows with that number, nothing if it is absent, or a refusal; and its k-th row likewise.
pub struct IndexVector {
    pub line: usize,
    pub kind: String,
    pub pages: Vec<Vec<u8>>,
    pub built: Vec<[u32; 2]>,
    pub asked: Vec<[u32; 2]>,
    pub number: u32,
    pub k: u32,
    pub held: Result<Option<[u32; 2]>, [usize; 3]>,
    pub kth: Result<Kth, [usize; 3]>,
}

/// The k-th row, or that there are fewer, or that the number is absent.
#[derive(Clone, Copy, Debug, PartialEq, Eq)]
pub enum Kth {
    Row(u32),
    None,
    Absent,
}

/// One case of a cell: its line in the file, its kind, its pages, the row counted from 1, the number of the field (0 for one that no cell shows), which of
/// three, and the catalogue's text; and what is shown or a refusal.
pub struct CellVector {
    pub line: usize,
    pub kind: String,
    pub pages: Vec<Vec<u8>>,
    pub row: usize,
    pub field: usize,
    pub which: usize,
    pub catalogue: Vec<u8>,
    pub shown: Result<ShownCell, [usize; 3]>,
}

impl CellVector {
    /// The same case as an input of plancell.
    pub fn input(&self) -> Vec<u8> {
        let numbers = [self.row, self.field, self.which].map(|number| number.to_string());
        let numbers = numbers.each_ref().map(String::as_bytes);
        asking(numbers, &self.catalogue, &joined(&self.pages))
    }
}

/// What a cell shows: its text and where that comes from, whether it is cut, whether 0 is printed, and how many bytes are left out.
#[derive(Clone, Debug, PartialEq, Eq)]
pub struct ShownCell {
    pub text: Vec<u8>,
    pub source: Source,
    pub cut: bool,
    pub zero: bool,
    pub left_out: usize,
}

/// Whose a cell's text is; an empty one is nobody's.
#[derive(Clone, Copy, Debug, PartialEq, Eq)]
pub enum Source {
    Plan,
    Catalogue,
    None,
}

/// The fields that a cell shows, numbered from 1: four with a limit, the four times of day, and the dose as free text.
const FIELDS: [&str; 9] = [
    "name",
    "substance",
    "strength",
    "form",
    "m",
    "d",
    "v",
    "h",
    "t",
];

/// The columns of a case of pages, of one of an index, and of one of a cell, which has fewer if it is refused.
const COLUMNS: [usize; 1] = [4];
const INDEX_COLUMNS: [usize; 1] = [8];
const CELL_COLUMNS: [usize; 2] = [7, 11];

/// The lines of a file of cases, numbered and taken apart.
fn lines(path: &Path) -> Vec<(usize, Vec<String>)> {
    let file = read_to_string(path).unwrap_or_else(|error| panic!("{}: {error}", path.display()));
    let lines = file
        .lines()
        .enumerate()
        .filter(|(_, line)| !line.starts_with('#'));
    lines
        .map(|(place, line)| (place + 1, line.split('\t').map(String::from).collect()))
        .collect()
}

/// A case of pages; `bytes` reads one page or listing in the file's form.
fn vector(line: usize, columns: &[String], bytes: fn(&str) -> Vec<u8>) -> Vector {
    let [kind, pages, listing, fresh] = columns else {
        panic!("line {line} has {} columns", columns.len());
    };
    Vector {
        line,
        kind: kind.clone(),
        pages: pages.split(',').map(bytes).collect(),
        listing: bytes(listing),
        fresh: answer(line, fresh, |fresh| fresh.split(',').map(bytes).collect()),
    }
}

/// A case of an index; `bytes` reads one page in the file's form.
fn index_vector(line: usize, columns: &[String], bytes: fn(&str) -> Vec<u8>) -> IndexVector {
    let [kind, pages, built, asked, number, k, held, kth] = columns else {
        panic!("line {line} has {} columns", columns.len());
    };
    IndexVector {
        line,
        kind: kind.clone(),
        pages: pages.split(',').map(bytes).collect(),
        built: pairs(line, built),
        asked: pairs(line, asked),
        number: whole(line, number),
        k: whole(line, k),
        held: answer(line, held, |held| match held {
            "absent" => None,
            _ => Some(two(line, held, ',')),
        }),
        kth: answer(line, kth, |kth| match kth {
            "absent" => Kth::Absent,
            "none" => Kth::None,
            _ => Kth::Row(whole(line, kth)),
        }),
    }
}

/// A case of a cell; `bytes` reads one page or text in the file's form.
fn cell_vector(line: usize, columns: &[String], bytes: fn(&str) -> Vec<u8>) -> CellVector {
    let [kind, pages, row, field, which, catalogue, text, rest @ ..] = columns else {
        panic!("line {line} has {} columns", columns.len());
    };
    CellVector {
        line,
        kind: kind.clone(),
        pages: pages.split(',').map(bytes).collect(),
        row: whole(line, row) as usize,
        field: FIELDS
            .iter()
            .position(|name| name == field)
            .map_or(0, |at| at + 1),
        which: whole(line, which) as usize,
        catalogue: bytes(catalogue),
        shown: answer(line, text, |text| shown(line, bytes(text), rest)),
    }
}

/// What is shown with a text, as the columns behind the text say.
fn shown(line: usize, text: Vec<u8>, columns: &[String]) -> ShownCell {
    let [source, cut, zero, left_out] = columns else {
        panic!("line {line} has {} columns behind a text", columns.len());
    };
    ShownCell {
        text,
        source: match source.as_str() {
            "plan" => Source::Plan,
            "catalogue" => Source::Catalogue,
            "none" => Source::None,
            _ => panic!("line {line} has {source:?} for whose text it is"),
        },
        cut: mark(line, cut),
        zero: mark(line, zero),
        left_out: whole(line, left_out) as usize,
    }
}

/// A mark that is set or not, 1 or 0.
fn mark(line: usize, text: &str) -> bool {
    match whole(line, text) {
        0 => false,
        1 => true,
        other => panic!("line {line} has {other} for a mark"),
    }
}

fn whole(line: usize, text: &str) -> u32 {
    text.parse()
        .unwrap_or_else(|_| panic!("line {line} has {text:?} for a number"))
}

fn two(line: usize, text: &str, between: char) -> [u32; 2] {
    let (one, other) = text
        .split_once(between)
        .unwrap_or_else(|| panic!("line {line} has {text:?} for two numbers"));
    [whole(line, one), whole(line, other)]
}

/// The pairs of an index, `number:row` with commas between them; `-` is none at all.
fn pairs(line: usize, text: &str) -> Vec<[u32; 2]> {
    let pairs = text.split(',').filter(|pair| *pair != "-");
    pairs.map(|pair| two(line, pair, ':')).collect()
}

/// An answer or a refusal.
fn answer<T>(line: usize, text: &str, read: impl Fn(&str) -> T) -> Result<T, [usize; 3]> {
    match text.strip_prefix("refused:").or(text.strip_prefix('!')) {
        Some(numbers) => Err(refusal(line, numbers)),
        None => Ok(read(text)),
    }
}

/// The numbers of a refusal, which stands as `refused:number:page:place` or `!number.page.place`.
fn refusal(line: usize, numbers: &str) -> [usize; 3] {
    let parsed: Vec<usize> = numbers
        .split([':', '.'])
        .filter_map(|number| number.parse().ok())
        .collect();
    <[usize; 3]>::try_from(parsed)
        .unwrap_or_else(|parsed| panic!("line {line} has a refusal of {} numbers", parsed.len()))
}

/// Bytes as hexadecimal digits; `-` is no byte at all.
pub fn hexadecimal(digits: &str) -> Vec<u8> {
    let bare = digits.replace('-', "");
    let pairs = bare
        .as_bytes()
        .chunks(2)
        .map(|pair| std::str::from_utf8(pair).unwrap());
    pairs
        .map(|pair| u8::from_str_radix(pair, 16).unwrap())
        .collect()
}

/// Bytes as themselves, or as `%XX`.
pub fn readable(text: &str) -> Vec<u8> {
    let mut pieces = text.split('%');
    let mut bytes = pieces.next().unwrap_or("").as_bytes().to_vec();
    for piece in pieces {
        bytes.extend(hexadecimal(&piece[..2]));
        bytes.extend(piece[2..].as_bytes());
    }
    bytes
}

/// A file of cases that the repository carries.
fn beside(name: &str) -> PathBuf {
    Path::new(env!("CARGO_MANIFEST_DIR"))
        .join("../vectors")
        .join(name)
}

/// The lines of the file that the environment variable TOLLGILT_VECTORS names which have one of these counts of columns; none if it names no file.
fn named_lines(columns: &[usize]) -> Vec<(usize, Vec<String>)> {
    let Some(path) = std::env::var_os("TOLLGILT_VECTORS").map(PathBuf::from) else {
        return Vec::new();
    };
    let mut found = lines(&path);
    assert!(!found.is_empty(), "{} has no vectors", path.display());
    let known = [&COLUMNS[..], &INDEX_COLUMNS, &CELL_COLUMNS].concat();
    for (line, found) in &found {
        let count = found.len();
        assert!(known.contains(&count), "line {line} has {count} columns");
    }
    found.retain(|(_, found)| columns.contains(&found.len()));
    found
}

/// Reads one line's case, with what reads bytes in the form of its file.
type Reader<T> = fn(usize, &[String], fn(&str) -> Vec<u8>) -> T;

/// The cases of a file that the repository carries, in the form of [`readable`].
fn carried_cases<T>(name: &str, read: Reader<T>) -> Vec<T> {
    let lines = lines(&beside(name)).into_iter();
    let case = |(line, columns): (usize, Vec<String>)| read(line, &columns, readable);
    lines.map(case).collect()
}

/// The cases of the named file with one of these counts of columns, in the form of [`hexadecimal`].
fn named_cases<T>(columns: &[usize], read: Reader<T>) -> Vec<T> {
    let lines = named_lines(columns).into_iter();
    let case = |(line, columns): (usize, Vec<String>)| read(line, &columns, hexadecimal);
    lines.map(case).collect()
}

/// The cases of pages that the repository carries.
pub fn carried() -> Vec<Vector> {
    carried_cases("sheets.tsv", vector)
}

/// The cases of pages in the named file.
pub fn named() -> Vec<Vector> {
    named_cases(&COLUMNS, vector)
}

/// The cases of an index that the repository carries.
pub fn carried_index() -> Vec<IndexVector> {
    carried_cases("index.tsv", index_vector)
}

/// The cases of an index in the named file.
pub fn named_index() -> Vec<IndexVector> {
    named_cases(&INDEX_COLUMNS, index_vector)
}

/// The cases of a cell that the repository carries.
pub fn carried_cells() -> Vec<CellVector> {
    carried_cases("cells.tsv", cell_vector)
}

/// The cases of a cell in the named file.
pub fn named_cells() -> Vec<CellVector> {
    named_cases(&CELL_COLUMNS, cell_vector)
}

#[cfg(test)]
mod tests {
    use super::*;

    /// The columns of a line.
    fn columns(line: &str) -> Vec<String> {
        line.split('\t').map(String::from).collect()
    }

    #[test]
    fn both_forms_of_a_refusal_are_read() {
        for fresh in ["refused:7:1:63", "!7.1.63"] {
            let columns = columns(&format!("birth\t3c\t-\t{fresh}"));
            let read = vector(1, &columns, hexadecimal);
            assert_eq!(read.fresh, Err([7, 1, 63]), "{fresh}");
        }
    }

    #[test]
    fn a_case_of_an_index_is_read() {
        let read = |line: &str| index_vector(1, &columns(line), hexadecimal);
        let right = read("right\t3c,4d\t17:2,23:1\t-\t17\t1\t2,1\t2");
        assert_eq!(right.pages, [b"<", b"M"]);
        assert_eq!(right.built, [[17, 2], [23, 1]]);
        assert_eq!(right.asked, [[0; 2]; 0]);
        assert_eq!((right.number, right.k), (17, 1));
        assert_eq!((right.held, right.kth), (Ok(Some([2, 1])), Ok(Kth::Row(2))));
        let none = read("right\t3c\t-\t0:0\t17\t0\tabsent\tnone");
        assert_eq!(none.asked, [[0, 0]]);
        assert_eq!((none.held, none.kth), (Ok(None), Ok(Kth::None)));
        let stale = read("twice\t3c\t-\t-\t17\t0\t!20.0.0\trefused:20:0:0");
        assert_eq!((stale.held, stale.kth), (Err([20, 0, 0]), Err([20, 0, 0])));
        let absent = read("right\t3c\t-\t-\t17\t0\tabsent\tabsent");
        assert_eq!(absent.kth, Ok(Kth::Absent));
    }

    #[test]
    fn a_case_of_a_cell_is_read() {
        let read = |line: &str| cell_vector(1, &columns(line), hexadecimal);
        let cut = read("cut\t3c,4d\t2\tstrength\t3\t61206220\t6120\tcatalogue\t1\t0\t2");
        assert_eq!(cut.pages, [b"<", b"M"]);
        assert_eq!((cut.row, cut.field, cut.which), (2, 3, 3));
        assert_eq!(cut.catalogue, b"a b ");
        let shown = ShownCell {
            text: b"a ".to_vec(),
            source: Source::Catalogue,
            cut: true,
            zero: false,
            left_out: 2,
        };
        assert_eq!(cut.shown, Ok(shown));
        let empty = ShownCell {
            text: Vec::new(),
            source: Source::None,
            cut: false,
            zero: true,
            left_out: 0,
        };
        let time = read("whole\t3c\t1\td\t0\t-\t-\tnone\t0\t1\t0");
        assert_eq!((time.field, time.shown), (6, Ok(empty)));
        let own = read("whole\t3c\t1\tt\t0\t-\t61\tplan\t0\t0\t0");
        let source = own.shown.map(|shown| shown.source);
        assert_eq!((own.field, source), (9, Ok(Source::Plan)));
        assert_eq!(cut.input(), b"2\x003\x003\0a b \0<\0M");
        let refused = read("whole\t3c\t1\tdu\t0\t-\t!1.0.0");
        assert_eq!((refused.field, refused.shown), (0, Err([1, 0, 0])));
    }

    #[test]
    fn both_forms_of_bytes_are_read() {
        assert_eq!(readable("a%25%2C%0Ab"), b"a%,\nb");
        assert_eq!(readable(""), b"");
        assert_eq!(hexadecimal("3c4d"), b"<M");
        assert_eq!(hexadecimal("-"), b"");
    }
}
