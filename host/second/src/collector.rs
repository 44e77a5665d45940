//! The collector: it takes single pages until the plan is complete.

use crate::join::{belongs, read};
use crate::page::judge;
use crate::plan::{Plan, Refusal};
use crate::MOST_PAGES;

/// The answer to a page added.
#[derive(Clone, Debug, PartialEq, Eq)]
pub enum Answer {
    Added,
    AlreadyHere,
    Refused(Refusal),
}

/// The pages taken so far. Number n lies at n - 1; `first` is the number of the page
/// taken first, and an empty collector has none.
#[derive(Clone, Debug, PartialEq, Eq)]
pub struct Collector {
    pages: [Option<Vec<u8>>; MOST_PAGES],
    first: Option<usize>,
    count: usize,
}

impl Default for Collector {
    fn default() -> Collector {
        Collector::new()
    }
}

impl Collector {
    /// An empty collector.
    pub fn new() -> Collector {
        Collector {
            pages: Default::default(),
            first: None,
            count: 0,
        }
    }

    /// Takes one page. It is judged as page 1 with 2 to 8, then 9 against the first page
    /// taken; a number that is here is answered "already here" if the bytes are equal,
    /// else 10. A refusal changes nothing.
    pub fn add(&mut self, page: &[u8]) -> Answer {
        let sheet = match judge(page) {
            Ok(sheet) => sheet,
            Err((number, place)) => return Answer::Refused(Refusal::new(number, 1, place)),
        };
        if let Some(first) = self.first_page() {
            if !judge(first).is_ok_and(|first| belongs(&sheet, &first)) {
                return Answer::Refused(Refusal::new(9, 1, 0));
            }
        }
        match &self.pages[sheet.number - 1] {
            Some(here) if here == page => Answer::AlreadyHere,
            Some(_) => Answer::Refused(Refusal::new(10, 1, 0)),
            None => {
                self.pages[sheet.number - 1] = Some(page.to_vec());
                self.first = self.first.or(Some(sheet.number));
                self.count = sheet.count;
                Answer::Added
            }
        }
    }

    /// The page that was taken first.
    fn first_page(&self) -> Option<&[u8]> {
        self.pages[self.first? - 1].as_deref()
    }

    /// The missing page numbers: bit n stands for number n. An empty collector misses none.
    pub fn missing(&self) -> u16 {
        let missing = |number: &usize| self.pages[number - 1].is_none();
        (1..=self.count)
            .filter(missing)
            .map(|number| 1 << number)
            .sum()
    }

    /// How many numbers are missing.
    pub fn missing_count(&self) -> u32 {
        self.missing().count_ones()
    }

    /// Complete, it reads as its pages handed in at once; incomplete, it is refused with
    /// 11 and the lowest missing number; empty, with 1.
    pub fn read(&self) -> Result<Plan, Refusal> {
        let pages: Vec<&[u8]> = self
            .pages
            .iter()
            .flatten()
            .map(|page| page.as_slice())
            .collect();
        read(&pages)
    }

    /// Makes it empty.
    pub fn clear(&mut self) {
        *self = Collector::new();
    }
}
