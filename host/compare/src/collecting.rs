//! The collector: sequences of pages, readings and clearings.

use inputs::{sequence, Step};
use second::call::{add_call, collector_call};
use second::Answer;

use crate::numbers::{reading_of, RECORD};
use crate::Reading;

mod border {
    extern "C" {
        #[allow(clippy::too_many_arguments)]
        pub fn probe_add(
            pages: *mut [u8; 12_600],
            lens: *mut [u16; 9],
            numbers: *mut [u8; 2],
            buffer: *const u8,
            size: usize,
            start: usize,
            length: usize,
            told: *mut [u32; 2],
        ) -> u32;
        pub fn probe_missing(
            pages: *const [u8; 12_600],
            lens: *const [u16; 9],
            numbers: *const [u8; 2],
            told: *mut [u32; 3],
        );
        #[allow(clippy::too_many_arguments)]
        pub fn probe_collected(
            pages: *const [u8; 12_600],
            lens: *const [u16; 9],
            numbers: *const [u8; 2],
            rows: *mut u32,
            rows_length: usize,
            text: *mut u8,
            text_length: usize,
            told: *mut [u32; 58],
        ) -> u32;
        pub fn probe_clear(pages: *mut [u8; 12_600], lens: *mut [u16; 9], numbers: *mut [u8; 2]);
    }
}

/// What stands in the rooms before a reading.
const POISON: u8 = 0xA5;

/// The answer of the proved collector that a page is here already.
const ALREADY_HERE: u32 = 20;

/// A proved collector: its pages, their lengths, the count of pages and the number of the first.
#[derive(Clone, PartialEq, Eq)]
pub struct Collector {
    pub(crate) pages: Box<[u8; 12_600]>,
    pub(crate) lens: [u16; 9],
    pub(crate) numbers: [u8; 2],
}

impl Collector {
    /// An empty one, made by clearing one of any numbers.
    pub fn new() -> Collector {
        let mut collector = Collector {
            pages: Box::new([POISON; 12_600]),
            lens: [POISON.into(); 9],
            numbers: [POISON; 2],
        };
        collector.clear();
        collector
    }

    /// The number, page and place of the answer to a page: all 0 where it is added.
    pub fn add(&mut self, buffer: &[u8], start: usize, length: usize) -> [u32; 3] {
        let mut told = [0; 2];
        // SAFETY: the fields have the sizes that are read and written; the buffer is one slice, which is only read; `told` has the two numbers that are
        // written.
        let number = unsafe {
            border::probe_add(
                &mut *self.pages,
                &mut self.lens,
                &mut self.numbers,
                buffer.as_ptr(),
                buffer.len(),
                start,
                length,
                &mut told,
            )
        };
        [number, told[0], told[1]]
    }

    /// The mask of the missing numbers, how many they are, and the lowest, 0 for none.
    pub fn missing(&self) -> [u32; 3] {
        let mut told = [0; 3];
        // SAFETY: the fields are only read; `told` has the three numbers that are written.
        unsafe { border::probe_missing(&*self.pages, &self.lens, &self.numbers, &mut told) };
        told
    }

    /// Reads what is collected into rooms that hold [`POISON`].
    pub fn read(&self, room: (usize, usize)) -> Reading {
        let mut rows = vec![u32::from(POISON); room.0];
        let mut text = vec![POISON; room.1];
        let mut told = [0; 58];
        // SAFETY: the fields are only read; rows and text are written within their lengths; `told` has the 58 numbers that are written.
        let number = unsafe {
            border::probe_collected(
                &*self.pages,
                &self.lens,
                &self.numbers,
                rows.as_mut_ptr(),
                rows.len(),
                text.as_mut_ptr(),
                text.len(),
                &mut told,
            )
        };
        Reading {
            refusal: [number, told[0], told[1]],
            head: told[2..].to_vec(),
            rows,
            text,
        }
    }

    pub fn clear(&mut self) {
        // SAFETY: the fields have the sizes that are read and written.
        unsafe { border::probe_clear(&mut *self.pages, &mut self.lens, &mut self.numbers) };
    }
}

impl Default for Collector {
    fn default() -> Collector {
        Collector::new()
    }
}

/// How often each answer was given over some sequences: pages by the number of the answer, and readings by theirs.
pub type Tally = std::collections::BTreeMap<(&'static str, u32), u64>;

/// The sequence of this seed, done by both.
pub fn differences(seed: u64, tally: &mut Tally) -> Vec<String> {
    compared(&format!("seed {seed}"), &sequence(seed), tally)
}

/// The pages of a set handed to a collector one by one, which is read after each.
pub fn set(title: &str, pages: &[Vec<u8>]) -> Vec<String> {
    let add = |page: &Vec<u8>| Step::Add {
        buffer: page.clone(),
        start: 0,
        length: page.len(),
    };
    let read = Step::Read {
        rows: second::MOST_ROWS,
        text: second::TEXT_ROOM,
    };
    let steps = pages.iter().flat_map(|page| [add(page), read.clone()]);
    compared(title, &steps.collect::<Vec<Step>>(), &mut Tally::new())
}

/// Steps done by both: each answer, the missing numbers after each step, each reading with its rooms; and that a page which is not added changes no
/// byte of the collector.
fn compared(title: &str, steps: &[Step], tally: &mut Tally) -> Vec<String> {
    let mut proved = Collector::new();
    let mut second = second::Collector::new();
    let mut found = Vec::new();
    for (at, step) in steps.iter().enumerate() {
        if !same(step, &mut proved, &mut second, tally) {
            found.push(format!("{title}, step {at}: the answer"));
        }
        let lowest = second.missing().trailing_zeros() % 16;
        let missing = [second.missing().into(), second.missing_count(), lowest];
        if proved.missing() != missing {
            found.push(format!("{title}, step {at}: the missing numbers"));
        }
    }
    found
}

/// Whether both answer a step alike.
fn same(
    step: &Step,
    proved: &mut Collector,
    second: &mut second::Collector,
    tally: &mut Tally,
) -> bool {
    let before = proved.clone();
    match step {
        Step::Add {
            buffer,
            start,
            length,
        } => {
            let given = proved.add(buffer, *start, *length);
            *tally.entry(("page", given[0])).or_default() += 1;
            let kept = given[0] == 0 || *proved == before;
            kept && given == answer(add_call(second, buffer, *start, *length))
        }
        Step::Read { rows, text } => {
            let given = proved.read((rows * RECORD, *text));
            *tally.entry(("reading", given.refusal[0])).or_default() += 1;
            given == reading(second, *rows, *text)
        }
        Step::Clear => {
            proved.clear();
            second.clear();
            *proved == Collector::new()
        }
    }
}

fn answer(answer: Answer) -> [u32; 3] {
    match answer {
        Answer::Added => [0; 3],
        Answer::AlreadyHere => [ALREADY_HERE, 0, 0],
        Answer::Refused(refusal) => [
            refusal.number.into(),
            refusal.page as u32,
            refusal.place as u32,
        ],
    }
}

/// What the second program's collector reads into rooms of these sizes.
fn reading(collector: &second::Collector, row_room: usize, text_room: usize) -> Reading {
    let answer = collector_call(collector, row_room, text_room);
    reading_of(answer, (row_room * RECORD, text_room), POISON)
}
